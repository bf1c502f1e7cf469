"""What clang's other dump, that in JSON, says of a source, in the form that front_tree.c writes.

Two things aren't in it: the names of a vector's components, which are taken from the source at their place, and the
numbers of `reqd_work_group_size` and its like, which are left out.
"""
import json
import re
import struct
import subprocess

EXTENSIONS = ("-cl-ext=-all,+cl_khr_byte_addressable_store,+cl_khr_global_int32_base_atomics,"
              "+cl_khr_global_int32_extended_atomics,+cl_khr_local_int32_base_atomics,"
              "+cl_khr_local_int32_extended_atomics,+cl_khr_fp64,+__cl_clang_bitfields")
WORDS = ["-target", "spir64", "-x", "cl", "-cl-std=CL1.2", "-D__OPENCL_VERSION__=120", "-U__IMAGE_SUPPORT__",
         "-Xclang", "-fdeclare-opencl-builtins", "-Xclang", "-finclude-default-header", "-Xclang", EXTENSIONS,
         "-fsyntax-only", "-w", "-fno-color-diagnostics"]
INTEGERS = {"bool": "b8", "_Bool": "b8", "char": "i8", "signed char": "i8", "unsigned char": "u8", "short": "i16",
            "unsigned short": "u16", "int": "i32", "unsigned int": "u32", "long": "i64", "unsigned long": "u64",
            "long long": "i64", "unsigned long long": "u64"}
SPACES = {"__private": "", "__global": "global ", "__constant": "constant ", "__local": "local "}
UNNAMED = r"\b(?:struct |union |enum )?(?:\w+::)*\((?:unnamed|anonymous)[^()]*? at [^()]*?:(\d+):(\d+)\)"
QUALIFIERS = r"(?:const|volatile|restrict|__restrict|__private|__global|__local|__constant)\b"
ELIDED = {"ParenExpr", "ConstantExpr", "ExprWithCleanups", "AttributedStmt", "PredefinedExpr"}
KINDS = {"FunctionDecl": "function", "ParmVarDecl": "parameter", "VarDecl": "variable",
         "EnumConstantDecl": "enumerator", "RecordDecl": "idle", "TypedefDecl": "idle", "EnumDecl": "idle",
         "EmptyDecl": "idle",
         "StaticAssertDecl": "idle", "CompoundStmt": "compound", "DeclStmt": "declarations", "NullStmt": "null",
         "IfStmt": "if", "WhileStmt": "while", "DoStmt": "do", "ForStmt": "for", "SwitchStmt": "switch",
         "CaseStmt": "case", "DefaultStmt": "default", "BreakStmt": "break", "ContinueStmt": "continue",
         "ReturnStmt": "return", "GotoStmt": "goto", "LabelStmt": "label", "IntegerLiteral": "integer",
         "CharacterLiteral": "integer", "CXXBoolLiteralExpr": "integer", "FloatingLiteral": "floating",
         "StringLiteral": "string", "DeclRefExpr": "name", "ArraySubscriptExpr": "subscript", "MemberExpr": "member",
         "ExtVectorElementExpr": "component", "UnaryOperator": "unary", "BinaryOperator": "binary",
         "CompoundAssignOperator": "assignment", "ConditionalOperator": "conditional", "CallExpr": "call",
         "ImplicitCastExpr": "cast", "CStyleCastExpr": "cast", "InitListExpr": "list", "ImplicitValueInitExpr": "zeros",
         "CompoundLiteralExpr": "literal", "UnaryExprOrTypeTraitExpr": "size", "AsTypeExpr": "as_type",
         "StmtExpr": "statement expression"}


class Type:
    """A type by its words: a base, or what it is made of."""

    def __init__(self, kind, of=None, base="", length=0, record=None, words=(), space="", size=0, align=1):
        self.kind, self.of, self.base, self.length, self.record = kind, of, base, length, record
        self.words, self.space, self.size, self.align = frozenset(words), space, size, align

    def text(self):
        words = "".join(f"{w} " for w in ("const", "volatile", "restrict") if w in self.words)
        if self.kind == "pointer":
            return f"{words}{self.space}* {self.of.text()}"
        if self.kind == "array":
            return f"[{self.length}] {self.of.text()}"
        if self.kind == "vector":
            return f"{words}{self.space}v{self.length} {self.of.text()}"
        if self.kind == "function":
            return f"function {self.of.text()}"
        if self.kind == "record":
            kind = "union" if self.record["tagUsed"] == "union" else "struct"
            return f"{words}{self.space}{kind} {self.record.get('name', '')} {{{self.size}, {self.align}}}"
        return f"{words}{self.space}{self.base}"


def run_clang(clang, path, options, dump):
    words = [clang, *WORDS, "-Xclang", f"-ast-dump{dump}", *options, path]
    return subprocess.run(words, capture_output=True, text=True, errors="replace")


class Reader:
    """A source's tree in JSON, with the place of each node."""

    def __init__(self, clang, path, options=()):
        done = run_clang(clang, path, options, "=json")
        if done.returncode:
            raise ValueError(done.stderr[:2000])
        self.path = path
        with open(path, encoding="utf-8", errors="replace") as file:
            self.lines = file.read().split("\n")
        self.root = json.loads(done.stdout)
        self.file, self.line = path, 0
        self.by_id, self.typedefs, self.tags, self.records, self.fields = {}, {}, {}, [], {}
        self.set_places()
        self.collect(self.root)
        self.written = []

    # ---- places: each is relative to the one that was written before --------------------------

    def bare(self, loc):
        self.file = loc.get("file", self.file)
        self.line = loc.get("line", self.line)
        if "col" not in loc:
            return None
        return loc.get("presumedFile", self.file), loc.get("presumedLine", self.line), loc["col"]

    def place(self, loc):
        """Where it is used, and where it is spelled."""
        if "spellingLoc" in loc or "expansionLoc" in loc:
            spelled, used = self.bare(loc.get("spellingLoc", {})), self.bare(loc.get("expansionLoc", {}))
            return used or spelled, spelled
        at = self.bare(loc)
        return at, at

    def set_places(self):
        stack = [self.root]
        while stack:
            n = stack.pop()
            own = self.place(n["loc"]) if "loc" in n else (None, None)
            begin = (None, None)
            if "range" in n:
                begin = self.place(n["range"].get("begin", {}))
                n["end"] = self.place(n["range"].get("end", {}))[1]
            is_declaration = n.get("kind", "").endswith("Decl")
            n["at"], n["spelled"] = (own if own[0] else begin) if is_declaration else begin
            if "id" in n and "kind" in n:
                self.by_id[n["id"]] = n
            stack.extend(reversed([c for c in self.filled(n) if c]))

    @staticmethod
    def filled(n):
        filler = n.get("array_filler", [])
        return (filler if isinstance(filler, list) else [filler]) + n.get("inner", [])

    def collect(self, root):
        stack = [root]
        while stack:
            n = stack.pop()
            kind = n.get("kind")
            if kind == "TypedefDecl":
                for c in n.get("inner", []):
                    if "ownedTagDecl" in c:
                        n["tag"] = c["ownedTagDecl"]["id"]
                self.typedefs.setdefault(n["name"], n)
            if kind in ("RecordDecl", "EnumDecl"):
                self.records.append(n)
                if n.get("completeDefinition") or kind == "EnumDecl":
                    self.tags.setdefault(n.get("name"), n)
            stack.extend(reversed([c for c in n.get("inner", []) if c]))

    # ---- types ----------------------------------------------------------------------------------

    def type_of(self, n, key="type"):
        text = n[key]["qualType"]
        if text.count("(") != text.count(")"):
            text = n[key]["desugaredQualType"]
        return self.read_type(text)

    def read_type(self, text):
        mark = re.search(r"__attribute__\(\(ext_vector_type\((\d+)\)\)\)(?![^()]*\))", text)
        if mark:
            text = text[:mark.start()] + " " + text[mark.end():]
        unnamed = re.search(UNNAMED, text)
        found = None
        if unnamed:
            line, column = int(unnamed.group(1)), int(unnamed.group(2))
            found = next(r for r in self.records if "name" not in r and r["spelled"][1:] == (line, column))
            text = text[:unnamed.start()] + " unnamed__ " + text[unnamed.end():]
        base, declarator = re.match(r"([^*\[(]*)(.*)$", text, re.S).groups()
        words, space, names = [], "", []
        for w in base.split():
            if w in SPACES:
                space = SPACES[w]
            elif w in ("const", "volatile", "restrict", "__restrict"):
                words.append(w.strip("_"))
            else:
                names.append(w)
        t = self.tag_type(found) if found else self.base_type(" ".join(names))
        if mark:
            t = self.vector(t, int(mark.group(1)))
        return self.declared(self.qualified(t, words, space), declarator.strip())

    @staticmethod
    def vector(of, length):
        size = of.size * (4 if length == 3 else length)
        return Type("vector", of, length=length, size=size, align=size)

    def qualified(self, t, words, space):
        if not words and not space:
            return t
        of = self.qualified(t.of, words, space) if t.kind == "array" else t.of
        return Type(t.kind, of, t.base, t.length, t.record, t.words | set(words), space or t.space, t.size, t.align)

    def declared(self, t, d):
        if not d:
            return t
        if d.startswith("*"):
            words = re.match(rf"\*((?:\s*{QUALIFIERS})*)", d)
            pointer = Type("pointer", t, size=8, align=8)
            qualifiers = words.group(1).split()
            space = "".join(SPACES.get(w, "") for w in qualifiers)
            pointer = self.qualified(pointer, [w.strip("_") for w in qualifiers if w not in SPACES], space)
            return self.declared(pointer, d[words.end():].strip())
        if d.startswith("["):
            length = re.match(r"\[(\d*)\]", d)
            of = self.declared(t, d[length.end():].strip())
            count = int(length.group(1) or 0)
            return Type("array", of, length=count, size=count * of.size, align=of.align)
        inner, rest = self.in_brackets(d)
        words = re.match(rf"\s*((?:{QUALIFIERS}\s*)*)(\*.*)?$", inner, re.S)
        if not words or not words.group(2):
            return Type("function", t)
        qualifiers = words.group(1).split()
        of = self.declared(t, rest.strip())
        space = "".join(SPACES.get(w, "") for w in qualifiers)
        return self.declared(self.qualified(of, [w for w in qualifiers if w not in SPACES], space), words.group(2))

    @staticmethod
    def in_brackets(d):
        depth = 0
        for i, c in enumerate(d):
            depth += (c == "(") - (c == ")")
            if not depth:
                return d[1:i], d[i + 1:]
        raise ValueError(d)

    def base_type(self, name):
        if name in INTEGERS:
            size = int(INTEGERS[name][1:]) // 8
            return Type("base", base=INTEGERS[name], size=size, align=size)
        if name in ("half", "float", "double"):
            size = {"half": 2, "float": 4, "double": 8}[name]
            return Type("base", base=f"f{size * 8}", size=size, align=size)
        if name in ("void", "event_t"):
            return Type("base", base=name.replace("_t", ""), size=8 * (name == "event_t"), align=8)
        words = name.split()
        if words[0] in ("struct", "union", "enum") and words[1] in self.tags:
            return self.tag_type(self.tags[words[1]])
        named = self.typedefs.get(words[-1])
        if named is None:
            return self.tag_type(self.tags[words[-1]])
        if "tag" in named and "struct (" not in named["type"]["qualType"] and "*" not in named["type"]["qualType"] \
                and "[" not in named["type"]["qualType"]:
            t = self.tag_type(self.by_id[named["tag"]])
        else:
            t = self.read_type(named["type"]["qualType"])
        align = self.aligned(named)
        return Type(t.kind, t.of, t.base, t.length, t.record, t.words, t.space, t.size, align) if align else t

    def tag_type(self, n):
        if n["kind"] == "EnumDecl":
            values = [self.enumerator(c) for c in n["inner"] if c.get("kind") == "EnumConstantDecl"]
            return self.base_type("int" if min(values) < 0 else "unsigned int")
        self.lay_out(n)
        return Type("record", record=n, size=n["size"], align=n["align"])

    @staticmethod
    def aligned(n):
        found = [int(v["value"]) for a in n.get("inner", []) if a.get("kind") == "AlignedAttr"
                 for v in a.get("inner", []) if "value" in v]
        return max(found, default=0)

    def lay_out(self, n):
        """C's layout: each member at the next multiple of its alignment."""
        if "size" in n:
            return
        if not n.get("completeDefinition"):
            n["size"] = n["align"] = 0
            return
        kinds = [c.get("kind") for c in n.get("inner", [])]
        offset, align, end = 0, 1, 0
        n["size"] = n["align"] = 0
        for c in n.get("inner", []):
            if c.get("kind") != "FieldDecl":
                continue
            t = self.type_of(c)
            packed = "PackedAttr" in kinds or any(a.get("kind") == "PackedAttr" for a in c.get("inner", []))
            own = max(1 if packed else t.align, self.aligned(c))
            offset = 0 if n["tagUsed"] == "union" else (end + own - 1) // own * own
            end = max(end, offset + t.size)
            align = max(align, own)
            self.fields[c["id"]] = (offset, own)
        align = max(align, self.aligned(n))
        n["size"], n["align"] = (end + align - 1) // align * align, align

    def enumerator(self, n):
        of = next(e for e in self.records if e["kind"] == "EnumDecl" and n in e["inner"])
        value = -1
        for c in of["inner"]:
            if c.get("kind") != "EnumConstantDecl":
                continue
            given = [d for d in c.get("inner", []) if "value" in d]
            value = int(given[0]["value"]) if given else value + 1
            if c is n:
                return value
        raise ValueError(n["name"])

    # ---- the tree as text -----------------------------------------------------------------------

    def where(self, at, with_file=True):
        if not at:
            return "source:0:0" if with_file else "0:0"
        file = "source" if at[0] == self.path else at[0]
        return f"{file}:{at[1]}:{at[2]}" if with_file else f"{at[1]}:{at[2]}"

    def write(self):
        for n in self.root["inner"]:
            at = n.get("at")
            if at and not at[0].endswith("opencl-c-base.h") and not at[0].startswith("<"):
                self.write_node(n, 0, None)
        return "\n".join(self.written)

    def unwrapped(self, n):
        while n and (n.get("kind") in ELIDED or n.get("opcode") == "__extension__"):
            n = next(c for c in n["inner"] if not c.get("kind", "").endswith("Attr"))
        return n

    def write_node(self, n, depth, above):
        n = self.unwrapped(n)
        if not n:
            self.written.append(f"{' ' * depth}nothing")
            return
        kind = n["kind"]
        if kind not in KINDS:
            raise ValueError(f"the comparison doesn't know {kind}")
        at = n["at"] or above
        has_type = "type" in n and kind not in ("TypedefDecl", "EnumDecl", "RecordDecl")
        t = self.type_of(n) if has_type else None
        self.written.append(f"{' ' * depth}{KINDS[kind]} {self.where(at)} {t.text() if t else ''}{self.details(n, t)}")
        for c in self.parts(n):
            self.write_node(c, depth + 1, at)

    def parts(self, n):
        kind = n["kind"]
        if KINDS[kind] == "idle" or kind in ("EnumConstantDecl", "UnaryExprOrTypeTraitExpr"):
            return []
        inner = [c for c in n.get("inner", []) if not c.get("kind", "").endswith(("Attr", "Comment", "Type"))]
        if kind == "ForStmt":
            return [inner[0], *inner[2:]]
        if "array_filler" in n:
            return n["array_filler"][1:]
        return inner

    def details(self, n, t):
        kind, out = n["kind"], []
        is_function = n.get("referencedDecl", {}).get("kind") == "FunctionDecl"
        if n.get("valueCategory") == "lvalue" and not is_function:
            out.append(" lvalue")
        if n.get("storageClass") == "static":
            out.append(" static")
        out += getattr(self, f"of_{kind}", lambda n, t: [])(n, t)
        if kind.endswith("Decl") and kind not in ("EmptyDecl", "StaticAssertDecl"):
            out.append(f" '{n.get('name', '')}'")
        if kind in ("EmptyDecl", "StaticAssertDecl"):
            out.append(" ''")
        if kind == "EnumConstantDecl":
            out.append(f" {self.enumerator(n)}")
        if kind in ("FunctionDecl", "VarDecl", "ParmVarDecl"):
            out += [f" [{a['kind']}]" for a in n.get("inner", []) if a.get("kind", "").endswith("Attr")]
        return "".join(out)

    @staticmethod
    def of_IntegerLiteral(n, t):
        value = int(n["value"])
        return [f" {value - (1 << 64) if value >> 63 and value > 0 else value}"]

    @staticmethod
    def of_CharacterLiteral(n, t):
        return [f" {struct.unpack('i', struct.pack('I', n['value'] & 0xffffffff))[0]}"]

    @staticmethod
    def of_CXXBoolLiteralExpr(n, t):
        return [f" {int(n['value'])}"]

    @staticmethod
    def of_FloatingLiteral(n, t):
        code = {"f32": "<fI", "f64": "<dQ"}[t.base]
        return [f" {struct.unpack('<' + code[2], struct.pack(code[:2], float(n['value'])))[0]:x}"]

    @staticmethod
    def of_StringLiteral(n, t):
        text, out, at = n["value"][1:-1], bytearray(), 0
        simple = dict(zip("abfnrtv\\\"'?", b"\a\b\f\n\r\t\v\\\"'?"))
        while at < len(text):
            octal = re.match(r"\\([0-7]{1,3})", text[at:])
            if octal:
                out.append(int(octal.group(1), 8))
                at += octal.end()
            elif text[at] == "\\":
                out.append(simple[text[at + 1]])
                at += 2
            else:
                out += text[at].encode()
                at += 1
        return [f' "{out.hex()}"']

    def of_DeclRefExpr(self, n, t):
        of = n["referencedDecl"]
        known = self.chosen(self.by_id.get(of["id"]))
        at = known["at"] if known and not known["at"][0].endswith("opencl-c-base.h") else None
        return [f" '{of['name']}' -> {KINDS[of['kind']]} at {self.where(at, False)}"]

    def chosen(self, n):
        """Of several declarations of a function the one with its body, of a variable that with its value."""
        if not n or n["kind"] not in ("FunctionDecl", "VarDecl"):
            return n
        same = [d for d in self.root["inner"] if d.get("kind") == n["kind"] and d.get("name") == n.get("name")]
        defined = [d for d in same if any(c.get("kind") == "CompoundStmt" for c in d.get("inner", [])) or "init" in d]
        return defined[0] if n in same and defined else same[0] if n in same else n

    def of_MemberExpr(self, n, t):
        offset, align = self.fields[n["referencedMemberDecl"]]
        arrow = " arrow" if n["isArrow"] else ""
        return [f" '{n.get('name', '')}'{arrow} field {offset}, {align}"]

    def of_ExtVectorElementExpr(self, n, t):
        line = self.lines[n["end"][1] - 1]
        name = re.match(r"\w+", line[n["end"][2] - 1:]).group(0)
        base = self.unwrapped(n["inner"][0])
        return [f" '{name}'" + (" arrow" if base["type"]["qualType"].rstrip().endswith("*") else "")]

    @staticmethod
    def of_UnaryOperator(n, t):
        return [f" '{n['opcode']}'" + (" postfix" if n["isPostfix"] else "")]

    @staticmethod
    def of_BinaryOperator(n, t):
        return [f" '{n['opcode']}'"]

    def of_CompoundAssignOperator(self, n, t):
        return [f" '{n['opcode']}' in {self.type_of(n, 'computeLHSType').text()}"]

    @staticmethod
    def of_ImplicitCastExpr(n, t):
        return [f" '{n['castKind']}'"]

    of_CStyleCastExpr = of_ImplicitCastExpr

    def of_InitListExpr(self, n, t):
        if "field" not in n:
            return []
        offset, align = self.fields[n["field"]["id"]]
        return [f" field {offset}, {align}"]

    def of_UnaryExprOrTypeTraitExpr(self, n, t):
        of = self.type_of(n, "argType") if "argType" in n else self.type_of(self.unwrapped(n["inner"][0]))
        name = {"__alignof": "alignof", "_Alignof": "alignof"}.get(n["name"], n["name"])
        return [f" '{name}' of {of.text()}"]

    def of_LabelStmt(self, n, t):
        return [f" '{n['name']}'"]

    def of_GotoStmt(self, n, t):
        to = next(d for d in self.by_id.values()
                  if d.get("kind") == "LabelStmt" and d.get("declId") == n["targetLabelDeclId"])
        return [f" '{to['name']}' -> {self.where(to['at'], False)}"]
