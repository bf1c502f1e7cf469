#!/bin/sh
# script.sh chain|short|blocks|calls: writes a script with a program near 20,000 nodes, whose kernel is launched once.
#   chain   2,900 helpers, each of which calls the one before
#   short   2,900 helpers without statements, which the kernel calls one after the other
#   blocks  150 helpers, each with 60 nested blocks round one call of the one before
#   calls   2,400 helpers without statements, of which the kernel calls the first 7,000 times inside 60 nested blocks
case "$#:$1" in
  1:chain | 1:short | 1:blocks | 1:calls) ;;
  *) echo "script.sh: chain, short, blocks or calls" >&2; exit 2 ;;
esac
awk -v kind="$1" 'BEGIN {
    count = kind == "blocks" ? 150 : kind == "calls" ? 2400 : 2900
    print "buffer a 4"
    print "program p " count + 2
    first = kind == "calls" ? "h" : "h0"
    print "void " first "(){}"
    for (i = 1; i < count; i++) {
        body = kind == "short" || kind == "calls" ? "" : "h" i - 1 "();"
        if (kind == "blocks") { for (b = 0; b < 60; b++) body = "{" body "}" }
        print "void h" i "(){" body "}"
    }
    calls = "h" count - 1 "();"
    if (kind == "short") { calls = ""; for (i = 0; i < count; i++) calls = calls "h" i "();" }
    if (kind == "calls") {
        calls = ""
        for (i = 0; i < 7000; i++) calls = calls "h();"
        for (b = 0; b < 60; b++) calls = "{" calls "}"
    }
    print "__kernel void f(__global int *a){" calls
    print "a[0] = 1;}"
    print "kernel k p f"
    print "arg k 0 buffer a"
    print "launch k 1 1"
    print "read a 0 4"
}'
