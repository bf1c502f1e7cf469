"""The page of a farm: its lists, its table of scripts, and the pages that a row leads to."""
import collections
import os

from base import FAULTY, VERDICTS, write_whole

MOST_ROWS = 5000  # of the page's table, so that a browser can show it
# How many texts stand on a page of texts, and from how many bytes on one has a file of its own.
TEXTS, LONG = 100, 1 << 14

HEAD = ('<!doctype html><html lang="en"><meta charset="utf-8">'
        '<meta name="viewport" content="width=device-width,initial-scale=1">')

PAGE_STYLE = """\
body{font:15px/1.5 system-ui,sans-serif;margin:1.5rem auto;padding:0 1rem;max-width:75rem;color:#1c2430;background:#fff}
h1{font-size:1.5rem}h2{font-size:1.1rem;margin-top:2rem}
.lists{display:grid;grid-template-columns:repeat(auto-fit,minmax(19rem,1fr));gap:0 2rem}
.lists ol{margin:0;padding-left:1.5rem}.lists li,td.name,td.line{overflow-wrap:anywhere}
.lists b{font-weight:400;color:#5a6472}
form{display:flex;flex-wrap:wrap;gap:.4rem 1rem;align-items:center;margin:.5rem 0 1rem}
input[type=search]{font:inherit;padding:.25rem .5rem;width:16rem}
table{border-collapse:collapse;width:100%}
td,th{padding:.3rem .6rem;border-bottom:1px solid #d8dee6;text-align:left;vertical-align:top}
th button{font:inherit;font-weight:600;border:0;background:none;padding:0;cursor:pointer}
.number{text-align:right;font-variant-numeric:tabular-nums}
td.line{font:13px/1.5 ui-monospace,monospace}.clean{color:#176b32}.ordered{color:#1f5096}
.fault,.refused{color:#b3261e}
.bad,.timeout,.killed,.crashed,.missing{color:#8a5000}
tr[hidden]{display:none}@media(max-width:40rem){body{display:flex;flex-direction:column}.lists{order:1}
table,tbody,tr,td{display:block}thead{display:none}
tr{border-bottom:1px solid #d8dee6;padding:.5rem 0}
td{border:0;padding:0}td.verdict,td.number{display:inline-block;margin-right:1rem}
td.number::after{content:" " attr(data-unit)}}"""

PAGE_SCRIPT = """const rows = [...document.querySelectorAll("tbody tr")], form = document.querySelector("form");
function filter() {
  const word = form.elements.word.value.toLowerCase(),
        wanted = new Set([...form.querySelectorAll(":checked")].map(it => it.value));
  let shown = 0;
  for (const row of rows) {
    row.hidden = !wanted.has(row.dataset.verdict) || !row.textContent.toLowerCase().includes(word);
    shown += !row.hidden;
  }
  document.querySelector("output").value = `${shown} of ${rows.length} shown`;
}
form.addEventListener("input", filter);
form.addEventListener("submit", event => event.preventDefault());
for (const [column, button] of document.querySelectorAll("th button").entries()) {
  button.addEventListener("click", () => {
    const key = row => row.cells[column].dataset.sort ?? row.cells[column].textContent,
          number = column == 2 || column == 3;
    rows.sort((one, other) => number ? key(other) - key(one) : key(one).localeCompare(key(other)));
    document.querySelector("tbody").append(...rows);
  });
}
filter();"""


def escaped(text):
    """Text as HTML and XML have it, also between quotes."""
    return text.replace("&", "&amp;").replace("<", "&lt;").replace(">", "&gt;").replace('"', "&quot;")


def first_of(it):
    """A script's first fault, refusal or error in a line: of a refusal that is explained also why."""
    return (it["explanation"] or {}).get("title", it["line"])


def holds_of(it):
    """For which bytes a script's replies hold, and of which other script they are."""
    text = (it.get("widened") or {}).get("text", "")
    return f"{text}, as {it['as_script']}" if "as" in it else text


def fault_of(line):
    """What faults are counted by: the number and name of a fault, and the place that it is at, without items,
    bytes and schedule."""
    words = line.split(" schedule ")[0].split()
    at = next((at for at, word in enumerate(words) if word in ("buffer", "local", "private", "variable")), len(words))
    return " ".join([*words[1:3], *words[at : at + 3 if words[at : at + 1] == ["local"] else at + 2]])


def name_of(it):
    """A script's name, which a narrow column may break behind a slash or a low line."""
    return escaped(it["script"]).replace("/", "/<wbr>").replace("_", "_<wbr>")


def memory_of(it):
    """The memory of a script's run in MB; of a small one it is known only that it is no more than the worker's."""
    return f"{'&lt; ' if it.get('mb_at_most') else ''}{it['mb']:.0f}"


# ---- the pages that rows lead to


def place_page(plan, it):
    """A page for a refusal or a bad line that has no explanation: what was said, and the line among those round it."""
    lines = plan.words_in(it["key"]).split("\n")
    at = it["script_line"]
    shown = [(number, lines[number - 1][:400]) for number in range(max(1, at - 8), min(len(lines), at + 8) + 1)]
    rows = "".join(f"<{'mark' if number == at else 'span'}>{number:6} | {escaped(line)}\n"
                   f"</{'mark' if number == at else 'span'}>" for number, line in shown)
    name = escaped(it["script"])
    return (f"{HEAD}<title>{name}</title><style>{PAGE_STYLE}pre{{overflow-x:auto}}</style><h1>{name}</h1>"
            f'<p class="{it["verdict"]}">line {at}: {escaped(it["line"][:2000])}</p><pre>{rows}</pre></html>\n')


def texts_page(plan, scripts):
    """A page with the texts of scripts, each under its key."""
    texts = [f'<h2 id="{it["key"]}">{escaped(it["script"])}</h2>\n<pre>{escaped(plan.words_in(it["key"]))}</pre>\n'
             for it in scripts]
    return (f"{HEAD}<title>Scripts of a farm</title><style>{PAGE_STYLE}pre{{overflow-x:auto}}"
            f":target,:target+pre{{background:#fff6d8}}</style>\n{''.join(texts)}</html>\n")


def links_of(plan, scripts):
    """Where the rows of scripts lead, by their keys: to an explanation, or to a text, which is written here."""
    os.makedirs(f"{plan.folder}/texts", exist_ok=True)
    explained = {it.removesuffix(".html") for it in os.listdir(f"{plan.folder}/explanations")}
    links, short = {}, {}
    for it in scripts:
        key, explaining = it["key"], it.get("as", it["key"])
        if explaining in explained:
            links[key] = f"explanations/{explaining}.html"
        elif it["size"] < LONG:
            short[key] = it
        else:
            links[key] = path = f"texts/{key}.txt"
            write_whole(f"{plan.folder}/{path}", plan.words_in(key), synced=False)
    for first in range(0, len(short), TEXTS):
        path, shown = f"texts/{first // TEXTS}.html", list(short.values())[first : first + TEXTS]
        write_whole(f"{plan.folder}/{path}", texts_page(plan, shown), synced=False)
        links |= {it["key"]: f"{path}#{it['key']}" for it in shown}
    return links


# ---- the page


def shown_of(it):
    """What a row shows of a script's first fault, refusal or error."""
    line = escaped(first_of(it).split(" schedule ")[0][:160])
    return f"line {it['script_line']}: {line}" if it.get("script_line") else line


def row_of(it, link, is_widened):
    """A row of the page's table, with a link to the explanation or, where there is none, to the script's text."""
    verdict, seconds, memory = it["verdict"], it["seconds"], it["mb"]
    line = shown_of(it) if it["line"] else ""
    holds = f'<td class="name">{escaped(holds_of(it))}</td>' if is_widened else ""
    return (f'<tr data-verdict="{verdict}"><td class="name"><a href="{link}">{name_of(it)}</a></td>'
            f'<td class="verdict {verdict}">{verdict}</td>'
            f'<td class="number" data-unit="s" data-sort="{seconds}">{seconds:.3f}</td>'
            f'<td class="number" data-unit="MB" data-sort="{memory}">{memory_of(it)}</td>'
            f'<td class="line">{line}</td>{holds}</tr>')


def lists_of(results):
    """The lists of the page: the most frequent faults, and the scripts that took most."""
    faults = collections.Counter(fault_of(it["line"]) for it in results if it["verdict"] == FAULTY)
    frequent = sorted(faults.items(), key=lambda it: -it[1])[:10]
    slowest = sorted(results, key=lambda it: -it["seconds"])[:10]
    largest = sorted(results, key=lambda it: -it["mb"])[:5]
    lists = [("Most frequent faults, in how many scripts", [(escaped(name), count) for name, count in frequent]),
             ("Slowest scripts, seconds each", [(name_of(it), f"{it['seconds']:.3f}") for it in slowest]),
             ("Scripts with the most memory, MB", [(name_of(it), memory_of(it)) for it in largest])]
    sections = ((head, "".join(f"<li>{name} <b>{number}</b></li>" for name, number in items)) for head, items in lists)
    return "".join(f"<section><h2>{head}</h2><ol>{items}</ol></section>\n" for head, items in sections if items)


def table_of(plan, results):
    """The table of all scripts, with a filter and an order by each column."""
    counted = collections.Counter(it["verdict"] for it in results)
    boxes = [f'<label><input type="checkbox" value="{it}" checked> <span class="{it}">{it}</span> {counted[it]}</label>'
             for it in VERDICTS if counted[it]]
    is_widened = any("widened" in it for it in results)
    heads = ["Script", "Verdict", "Seconds", "Memory of the program, MB", "First fault, refusal or error, at its line"]
    heads += ["For which bytes the replies hold"] if is_widened else []
    order = {it: -at for at, it in enumerate(VERDICTS)}
    shown = sorted(results, key=lambda it: (order[it["verdict"]], it["script"]))[:MOST_ROWS]
    links = links_of(plan, shown)
    rows = [row_of(it, links[it["key"]], is_widened) for it in shown]
    lines = ["<h2>Scripts</h2>", '<form><label>Filter <input type="search" name="word"></label>', *boxes,
             "<output></output></form>", "<table><thead><tr>",
             *(f'<th><button type="button">{it}</button></th>' for it in heads), "</tr></thead><tbody>",
             *rows, "</tbody></table>"]
    if len(results) > MOST_ROWS:
        lines += [f"<p>{len(results) - MOST_ROWS} more aren't shown: what isn't clean comes first.</p>"]
    return "\n".join(lines) + "\n"


def page_of(plan, results, summary):
    """The results as one page."""
    return (f"{HEAD}<title>Clsim farm</title><style>{PAGE_STYLE}</style>\n"
            f'<h1>Clsim farm</h1><p>{escaped(summary)}</p>\n<div class="lists">{lists_of(results)}</div>\n'
            f"{table_of(plan, results)}<script>{PAGE_SCRIPT}</script></html>\n")
