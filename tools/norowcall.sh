#!/usr/bin/env bash
# norowcall.sh ARCHIVE: no row loop calls another function. A call there passes a window's state through memory at every row, and comes
# without a word where the compiler no longer inlines a function, as at its second call site (docs/DECISIONS.md, 10 and 18).
#
# From each entry over windows it follows the calls. Of every function that it comes to, the entry itself too,
# - no loop may call anything but the root, which is meant to be called, and which is not followed, and in the rows of pairs one memset: where
#   every state that a flip stores is zero the compiler of kit 13f clears that part of the list at once;
# - one of `rolling` whose last name is `rows` or `block` may call nothing else outside its loops either, but for memset, memcpy and memmove,
#   by which the compiler clears or copies a list once in a call.
# A loop is what lies between a jump back and the place that it leads to, where that place comes to the jump again. Each entry must come to a row loop, whatever its name: a loop that
# divides doubles, as every insertion and every figure does. Where one comes to none this looks at the wrong code, and fails.
set -euo pipefail
[ -f "${1:?usage: norowcall.sh ARCHIVE}" ] || { echo "norowcall.sh: there is no $1"; exit 1; }
objdump -dr --no-show-raw-insn -M intel "$1" | awk '
  function address(hex) { return sprintf("%16s", hex) }  # right-justified, two of them compare as numbers do
  function in_loop(f, at,    k) { for (k = 1; k <= loops[f]; k++) if (from[f, k] <= at && at <= upto[f, k]) return 1; return 0 }
  function fault(words) { if (!told[words]++) print "norowcall.sh: " words; bad = 1 }
  function add_call(f, at, callee) { call[f, ++calls[f]] = at; called[f, calls[f]] = callee }

  # Whether control can go from one instruction of f to another.
  function comes(f, start, goal,    stack, top, n, on, been) {
    stack[top = 1] = number[f, start]
    while (top) {
      n = stack[top--]
      if (!n || n > lines[f] || been[n]++) continue
      if (line[f, n] == goal) return 1
      if ((f, n) in leads) stack[++top] = number[f, leads[f, n]]
      if (!ends[f, n]) stack[++top] = n + 1
    }
    return 0
  }

  # Every function that f comes to, once for each entry; those with a row loop are put to the list `holders`.
  function follow(f,    k, callee, holds) {
    if (!(f in known) || seen[entry, f]++) return
    for (k = 1; k <= divisions[f]; k++) if (in_loop(f, division[f, k])) holds = 1
    if (holds) holders = holders " " f
    if (tables[f]) fault(f " jumps by a table, so its loops are not known")
    for (k = 1; k <= calls[f]; k++) {
      callee = called[f, k]
      if (callee ~ /^root::/) continue
      if (callee == "memset" && entry ~ /_(cov|pearson_corr)$/ && f ~ /^rolling::figures::rows/ && !cleared[entry, f]++) continue
      if (in_loop(f, call[f, k])) fault(f " calls " callee " in a loop")
      else if (f ~ /^rolling::(.*::)?(rows|block)(::<#[0-9a-f]+>)?$/ && callee !~ /^mem(set|cpy|move)$/) fault(f " calls " callee)
      follow(callee)
    }
  }

  /^[0-9a-f]+ <.*>:$/ { f = substr($0, index($0, "<") + 1); sub(/>:$/, "", f); known[f]; order[++functions] = f; next }
  # What a linker is to put in, on a line after its instruction: the name of a function, or of its section behind .text.
  /^\t+[0-9a-f]+: R_X86_64_/ {
    name = $3; sub(/[-+]0x[0-9a-f]+$/, "", name); sub(/^\.text\./, "", name)
    if (what == "call") called[f, calls[f]] = name
    if (what ~ /^j/) add_call(f, at, name)
    what = ""; next
  }
  /^ *[0-9a-f]+:\t/ {
    at = address(substr($1, 1, length($1) - 1)); what = $2
    line[f, ++lines[f]] = at; number[f, at] = lines[f]; ends[f, lines[f]] = what ~ /^(jmp|ret|ud2)/
    if (what ~ /^j/ && $3 ~ /^[0-9a-f]+$/) leads[f, lines[f]] = address($3)
    target = index($0, "<") ? substr($0, index($0, "<") + 1) : "an unknown place"; sub(/(\+0x[0-9a-f]+)?>[^>]*$/, "", target)
    if (what ~ /^v?div[sp]d$/) division[f, ++divisions[f]] = at
    else if (what == "call" || what ~ /^j/ && target != f && $3 ~ /^[0-9a-f]+$/) add_call(f, at, target)
    else if (what ~ /^j/ && $3 !~ /^[0-9a-f]+$/) tables[f] = 1
    else if (what ~ /^j/ && address($3) <= at) { from[f, ++loops[f]] = address($3); upto[f, loops[f]] = at }
  }

  END {
    for (n = 1; n <= functions; n++) {
      f = order[n]; all = loops[f]; loops[f] = 0
      for (k = 1; k <= all; k++) if (comes(f, from[f, k], upto[f, k])) { from[f, ++loops[f]] = from[f, k]; upto[f, loops[f]] = upto[f, k] }
    }
    k = split("plan_var plan_skew plan_kurtosis rolling_var rolling_skew rolling_kurtosis", wanted)
    for (; k > 0; k--) if (!("moments_" wanted[k] in known)) fault("the archive has no moments_" wanted[k])
    for (k = 1; k <= functions; k++) if ((entry = order[k]) ~ /^moments_(plan|rolling)_/) {
      holders = ""; follow(entry)
      if (holders == "") fault(entry " comes to no row loop"); else print "row loop of " entry ":" holders
    }
    print (bad ? "A CALL IN A ROW LOOP, OR NO ROW LOOP" : "no call in a row loop")
    exit bad
  }'
