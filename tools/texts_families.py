"""Families of designs in which the order of the state bits decides what a search costs, each by its size.

FAMILIES has for each its name, the function from a size to a text, and the sizes that tools/families.py takes.
"""


def wire_array(n):
    """Bits through three arrays."""
    return f"""module main() {{
  a, b, c : array 0..{n - 1} of boolean;
  for (i = 0; i < {n}; i = i + 1) {{
    b[i] := a[i];
    c[i] := b[i];
  }}
  p : assert G &[ c[i] = a[i] : i in 0..{n - 1} ];
}}
"""


def wire_reverse(n):
    """The same, turned round and back, and declared the other way."""
    return f"""module main() {{
  c, b, a : array 0..{n - 1} of boolean;
  for (i = 0; i < {n}; i = i + 1) {{
    b[i] := a[{n - 1} - i];
    c[i] := b[{n - 1} - i];
  }}
  p : assert G &[ c[i] = a[i] : i in 0..{n - 1} ];
}}
"""


def wire_struct(n):
    """Structs of arrays of bits, one copied to the other."""
    fields = ", ".join(f"f{k}" for k in range(4))
    copies = "\n".join(f"    to.f{k}[i] := from.f{k}[i];" for k in range(4))
    same = " & ".join(f"to.f{k}[i] = from.f{k}[i]" for k in range(4))
    return f"""typedef word struct {{ {fields} : array 0..{n // 4 - 1} of boolean; }};
module main() {{
  from, to : word;
  for (i = 0; i < {n // 4}; i = i + 1) {{
{copies}
  }}
  p : assert G &[ {same} : i in 0..{n // 4 - 1} ];
}}
"""


def wire_instances(n):
    """Bits through instances of a module that passes them on."""
    count = n // 8
    lines = "\n".join(f"  i{k} : pass(x[{k}], y[{k}]);" for k in range(count))
    return f"""module pass(from, to) {{
  input from : 0..255;
  output to : 0..255;
  held : 0..255;
  held := from;
  to := held;
}}
module main() {{
  x, y : array 0..{count - 1} of 0..255;
{lines}
  p : assert G &[ y[i] = x[i] : i in 0..{count - 1} ];
}}
"""


def adder_bits(n):
    """Two ripple adders, whose bits are declared apart."""
    return f"""module main() {{
  a, b, s, t : array 0..{n - 1} of boolean;
  c, d : array 0..{n} of boolean;
  c[0] := 0;
  d[0] := 0;
  for (i = 0; i < {n}; i = i + 1) {{
    s[i] := (a[i] ~= b[i]) ~= c[i];
    c[i + 1] := a[i] & b[i] | c[i] & (a[i] ~= b[i]);
    t[i] := (b[i] ~= a[i]) ~= d[i];
    d[i + 1] := a[i] & b[i] | d[i] & (a[i] | b[i]);
  }}
  p : assert G &[ s[i] = t[i] : i in 0..{n - 1} ];
}}
"""


def adder_number(n):
    """A ripple adder against the sum of numbers."""
    most = 2**n - 1
    value = lambda name: " + ".join(f"({name}[{k}] ? {2**k} : 0)" for k in range(n))  # noqa: E731
    return f"""module main() {{
  x, y : 0..{most};
  a, b, s : array 0..{n - 1} of boolean;
  c : array 0..{n} of boolean;
  x := {value("a")};
  y := {value("b")};
  c[0] := 0;
  for (i = 0; i < {n}; i = i + 1) {{
    s[i] := (a[i] ~= b[i]) ~= c[i];
    c[i + 1] := a[i] & b[i] | c[i] & (a[i] ~= b[i]);
  }}
  p : assert G ((x + y) mod {2**n} = {value("s")});
}}
"""


def alu_bits(n):
    """An ALU by bits beside another one, and a result register."""
    return f"""module main() {{
  op : {{add, sub, band, bor}};
  a, b, m, s, r, q : array 0..{n - 1} of boolean;
  c : array 0..{n} of boolean;
  u, w, k : array 0..{n} of boolean;
  for (i = 0; i < {n}; i = i + 1) m[i] := op = sub ? ~b[i] : b[i];
  c[0] := op = sub;
  for (i = 0; i < {n}; i = i + 1) {{
    s[i] := (a[i] ~= m[i]) ~= c[i];
    c[i + 1] := a[i] & m[i] | c[i] & (a[i] | m[i]);
    init(r[i]) := 0;
    next(r[i]) := op = band ? a[i] & b[i] : op = bor ? a[i] | b[i] : s[i];
  }}
  k[0] := 0;
  w[0] := 0;
  for (i = 0; i < {n}; i = i + 1) {{
    k[i + 1] := a[i] & b[i] | k[i] & (a[i] ~= b[i]);
    w[i + 1] := ~a[i] & b[i] | w[i] & ~(a[i] ~= b[i]);
    u[i] := op = sub ? (a[i] ~= b[i]) ~= w[i] : (a[i] ~= b[i]) ~= k[i];
    init(q[i]) := 0;
    next(q[i]) := op = band ? a[i] & b[i] : op = bor ? a[i] | b[i] : u[i];
  }}
  p : assert G &[ r[i] = q[i] : i in 0..{n - 1} ];
}}
"""


def alu_numbers(n):
    """An ALU by bits against numbers that are kept."""
    most = 2**n - 1
    value = lambda name: " + ".join(f"({name}[{k}] ? {2**k} : 0)" for k in range(n))  # noqa: E731
    return f"""module main() {{
  op : {{add, inc, pass}};
  x, y, z : 0..{most};
  a, b, s, r : array 0..{n - 1} of boolean;
  c : array 0..{n} of boolean;
  x := {value("a")};
  y := {value("b")};
  c[0] := op = inc;
  for (i = 0; i < {n}; i = i + 1) {{
    s[i] := (a[i] ~= (op = add & b[i])) ~= c[i];
    c[i + 1] := a[i] & (op = add & b[i]) | c[i] & (a[i] ~= (op = add & b[i]));
    init(r[i]) := 0;
    next(r[i]) := s[i];
  }}
  init(z) := 0;
  next(z) := op = add ? (x + y) mod {2**n} : op = inc ? (x + 1) mod {2**n} : x;
  p : assert G (z = {value("r")});
}}
"""


def uart(n):
    """A serial link with `n` data bits, whose registers are written out by `for`."""
    return f"""module main() {{
  send, busy, line, taken : boolean;
  din, out, shifted, kept : array 0..{n - 1} of boolean;
  count, got : 0..{n};
  hears : boolean;
  init(busy) := 0;
  init(count) := 0;
  init(hears) := 0;
  init(got) := 0;
  line := busy ? (count = 0 ? 0 : out[0]) : 1;
  if (send & ~busy) {{
    next(busy) := 1;
    next(count) := 0;
  }}
  else if (busy) {{
    next(count) := count = {n} ? 0 : count + 1;
    if (count = {n}) next(busy) := 0;
  }}
  for (i = 0; i < {n - 1}; i = i + 1) {{
    if (send & ~busy) next(out[i]) := din[i];
    else if (busy & count > 0) next(out[i]) := out[i + 1];
  }}
  if (send & ~busy) next(out[{n - 1}]) := din[{n - 1}];
  for (i = 0; i < {n}; i = i + 1) if (send & ~busy) next(kept[i]) := din[i];
  if (hears) {{
    for (i = 0; i < {n - 1}; i = i + 1) next(shifted[i]) := shifted[i + 1];
    next(shifted[{n - 1}]) := line;
    next(got) := got = {n - 1} ? 0 : got + 1;
    if (got = {n - 1}) next(hears) := 0;
  }}
  else if (~line) next(hears) := 1;
  init(taken) := 0;
  next(taken) := hears & got = {n - 1};
  whole : assert G (taken -> &[ shifted[i] = kept[i] : i in 0..{n - 1} ]);
}}
"""


def fifo(n):
    """A FIFO in a circular buffer against a followed word."""
    return f"""scalarset WORD undefined;
module main() {{
  place : array 0..{n - 1} of WORD;
  push, pop, full, empty, puts, takes : boolean;
  read, write : 0..{n - 1};
  last_was_put, chosen : boolean;
  abstract followed : boolean;
  abstract size, left, ahead : 0..{n};
  abstract word : WORD;
  din, dout : WORD;
  full := read = write & last_was_put;
  empty := read = write & ~last_was_put;
  puts := push & ~full;
  takes := pop & ~empty;
  dout := place[read];
  init(read) := 0;
  init(write) := 0;
  init(last_was_put) := 0;
  if (puts) {{
    next(place[write]) := din;
    next(write) := (write + 1) mod {n};
  }}
  if (takes) next(read) := (read + 1) mod {n};
  if (puts & ~takes) next(last_was_put) := 1;
  else if (takes & ~puts) next(last_was_put) := 0;
  layer queue : {{
    init(size) := 0;
    left := takes ? size - 1 : size;
    next(size) := puts ? left + 1 : left;
    init(followed) := 0;
    if (followed) {{
      if (takes & ahead = 0) next(followed) := 0;
      if (takes) next(ahead) := ahead - 1;
    }}
    else if (puts & chosen) {{
      next(followed) := 1;
      next(word) := din;
      next(ahead) := left;
    }}
    full := size = {n};
    empty := size = 0;
    if (followed & ahead = 0) dout := word;
  }}
  forall (c in WORD) subcase shown[c] of dout//queue for word = c;
}}
"""


def fifo_late(n):
    """The same with its places declared last."""
    text = fifo(n)
    line = f"  place : array 0..{n - 1} of WORD;\n"
    return text.replace(line, "").replace("  din, dout : WORD;\n", "  din, dout : WORD;\n" + line)


def shift_pair(n):
    """Two shift registers, and copies of what each has."""
    return f"""module main() {{
  din : boolean;
  x, y, u, w : array 0..{n - 1} of boolean;
  for (i = 0; i < {n}; i = i + 1) {{
    init(x[i]) := 0;
    init(y[i]) := 0;
    u[i] := x[i];
    w[i] := y[i];
  }}
  next(x[0]) := din;
  next(y[0]) := din;
  for (i = 0; i < {n - 1}; i = i + 1) {{
    next(x[i + 1]) := u[i];
    next(y[i + 1]) := w[i];
  }}
  p : assert G (u[{n - 1}] = w[{n - 1}]);
}}
"""


def token_ring(n):
    """Stations in a ring, one of which has the token."""
    return f"""module main() {{
  go, wants, has, works : array 0..{n - 1} of boolean;
  for (i = 0; i < {n}; i = i + 1) {{
    init(works[i]) := 0;
    next(works[i]) := has[i] & wants[i];
  }}
  init(has[0]) := 1;
  for (i = 1; i < {n}; i = i + 1) {{
    init(has[i]) := 0;
    next(has[i]) := has[i - 1] & go[i - 1] & ~wants[i - 1] | has[i] & ~(go[i] & ~wants[i]);
  }}
  next(has[0]) := has[{n - 1}] & go[{n - 1}] & ~wants[{n - 1}] | has[0] & ~(go[0] & ~wants[0]);
  p : assert G &[ &[ i = j | ~(works[i] & works[j]) : j in 0..{n - 1} ] : i in 0..{n - 1} ];
}}
"""


def token_pairs(n):
    """The same with a claim for each two stations: a case for each, so that many processes can take them."""
    text = token_ring(n)
    return text[: text.index("  p : ")] + f"  forall (i in 0..{n - 1}) forall (j in 0..{n - 1}) alone[i][j] : assert G (i = j | ~(works[i] & works[j]));\n}}\n"


def round_robin(n):
    """A round-robin arbiter with a pointer."""
    moves = " else ".join(f"if (grant[{k}]) next(last) := {k};" for k in range(n))
    return f"""module main() {{
  asks, grant, behind : array 0..{n - 1} of boolean;
  last : 0..{n - 1};
  some, late : boolean;
  for (i = 0; i < {n}; i = i + 1) behind[i] := asks[i] & last < i;
  late := |[ behind[i] : i in 0..{n - 1} ];
  for (i = 0; i < {n}; i = i + 1)
    grant[i] := late ? behind[i] & &[ j >= i | ~behind[j] : j in 0..{n - 1} ] : asks[i] & &[ j >= i | ~asks[j] : j in 0..{n - 1} ];
  some := |[ grant[i] : i in 0..{n - 1} ];
  init(last) := 0;
  {moves}
  alone : assert G &[ &[ i = j | ~(grant[i] & grant[j]) : j in 0..{n - 1} ] : i in 0..{n - 1} ];
  served : assert G (|[ asks[i] : i in 0..{n - 1} ] -> some);
}}
"""


def german(n):
    """German's protocol at so many caches, without its lemma."""
    here = f"0..{n - 1}"
    return f"""module main() {{
  sharer, to_ask : array {here} of boolean;
  exclusive_given : boolean;
  ack : array {here} of boolean;
  client : {here};
  serving : {{nothing, shared_copy, exclusive_copy}};
  invalidates, acks, takes, gets_ack, gives_shared, gives_exclusive : boolean;
  act : {{ask_shared, ask_exclusive, take, send_invalidate, send_ack, get_ack, give, get_answer}};
  who : {here};
  request : array {here} of {{no_request, want_shared, want_exclusive}};
  cache : array {here} of {{invalid, shared, exclusive}};
  answer : array {here} of {{no_answer, invalidate, grant_shared, grant_exclusive}};
  takes := act = take & serving = nothing & request[who] ~= no_request;
  invalidates := act = send_invalidate & answer[who] = no_answer & to_ask[who]
    & (serving = exclusive_copy | serving = shared_copy & exclusive_given);
  acks := act = send_ack & answer[who] = invalidate & ~ack[who];
  gets_ack := act = get_ack & serving ~= nothing & ack[who];
  gives_shared := act = give & who = client & serving = shared_copy & answer[who] = no_answer & ~exclusive_given;
  gives_exclusive := act = give & who = client & serving = exclusive_copy & answer[who] = no_answer
    & ~exclusive_given & &[ ~sharer[i] : i in {here} ];
  init(exclusive_given) := 0;
  if (gets_ack) next(exclusive_given) := 0;
  else if (gives_exclusive) next(exclusive_given) := 1;
  init(serving) := nothing;
  if (takes) {{
    next(serving) := request[who] = want_shared ? shared_copy : exclusive_copy;
    next(client) := who;
  }}
  else if (gives_shared | gives_exclusive) next(serving) := nothing;
  forall (i in {here}) {{
    init(cache[i]) := invalid;
    init(request[i]) := no_request;
    init(answer[i]) := no_answer;
    init(ack[i]) := 0;
    init(sharer[i]) := 0;
    init(to_ask[i]) := 0;
    if (takes) next(to_ask[i]) := sharer[i];
    else if (who = i & invalidates) next(to_ask[i]) := 0;
    if (who = i) {{
      if (act = ask_shared & cache[i] = invalid & request[i] = no_request) next(request[i]) := want_shared;
      else if (act = ask_exclusive & cache[i] ~= exclusive & request[i] = no_request) next(request[i]) := want_exclusive;
      else if (takes) next(request[i]) := no_request;
      if (gives_shared) next(answer[i]) := grant_shared;
      else if (gives_exclusive) next(answer[i]) := grant_exclusive;
      else if (invalidates) next(answer[i]) := invalidate;
      else if (acks) next(answer[i]) := no_answer;
      else if (act = get_answer & answer[i] in {{grant_shared, grant_exclusive}}) next(answer[i]) := no_answer;
      if (acks) {{
        next(ack[i]) := 1;
        next(cache[i]) := invalid;
      }}
      else {{
        if (gets_ack) next(ack[i]) := 0;
        if (act = get_answer & answer[i] = grant_shared) next(cache[i]) := shared;
        else if (act = get_answer & answer[i] = grant_exclusive) next(cache[i]) := exclusive;
      }}
      if (gets_ack) next(sharer[i]) := 0;
      else if (gives_shared | gives_exclusive) next(sharer[i]) := 1;
    }}
  }}
  coherent : assert G &[ &[ i = j | ~(cache[i] = exclusive & cache[j] ~= invalid) : j in {here} ] : i in {here} ];
}}
"""


def caches(n):
    """Snooping caches of one line each, as arrays, over one word of memory."""
    here = f"0..{n - 1}"
    return f"""module main() {{
  state : array {here} of {{invalid, shared, owned}};
  word : array {here} of 0..3;
  memory, din, flat : 0..3;
  who : {here};
  reads, writes, misses : boolean;
  act : {{read, write, drop}};
  reads := act = read & state[who] = invalid;
  writes := act = write;
  misses := reads | writes;
  init(memory) := 0;
  init(flat) := 0;
  if (writes) next(flat) := din;
  if (|[ state[i] = owned & (misses & i ~= who | act = drop & i = who) : i in {here} ]) next(memory) := flat;
  forall (i in {here}) {{
    init(state[i]) := invalid;
    init(word[i]) := 0;
    if (who = i) {{
      if (reads) {{
        next(state[i]) := shared;
        next(word[i]) := |[ state[j] = owned & j ~= i : j in {here} ] ? flat : memory;
      }}
      else if (writes) {{
        next(state[i]) := owned;
        next(word[i]) := din;
      }}
      else if (act = drop) next(state[i]) := invalid;
    }}
    else if (writes) next(state[i]) := invalid;
    else if (reads & state[i] = owned) next(state[i]) := shared;
  }}
  fresh : assert G &[ state[i] = invalid | word[i] = flat : i in {here} ];
}}
"""


def memory(n):
    """A memory against a copy of it; the indexes are declared behind both."""
    return f"""module main() {{
  cell, copy : array 0..{n - 1} of 0..15;
  out, other, din : 0..15;
  writes : boolean;
  read, write : 0..{n - 1};
  forall (i in 0..{n - 1}) {{
    init(cell[i]) := 0;
    init(copy[i]) := 0;
    if (writes & write = i) next(copy[i]) := din;
  }}
  if (writes) next(cell[write]) := din;
  out := cell[read];
  other := copy[read];
  p : assert G (out = other);
}}
"""


def gray(n):
    """A counter beside its Gray code, as an array of bits."""
    code = " & ".join(f"g[{k}] = (b[{k}] ~= b[{k + 1}])" for k in range(n - 1))
    return f"""module main() {{
  g, toggles : array 0..{n - 1} of boolean;
  b, carry : array 0..{n - 1} of boolean;
  even : boolean;
  carry[0] := 1;
  for (i = 1; i < {n}; i = i + 1) carry[i] := carry[i - 1] & b[i - 1];
  for (i = 0; i < {n}; i = i + 1) {{
    init(b[i]) := 0;
    next(b[i]) := b[i] ~= carry[i];
    init(g[i]) := 0;
    next(g[i]) := g[i] ~= toggles[i];
  }}
  even := b[0] = 0;
  toggles[0] := even;
  for (i = 1; i < {n - 1}; i = i + 1) toggles[i] := ~even & g[i - 1] & &[ j >= i - 1 | ~g[j] : j in 0..{n - 1} ];
  toggles[{n - 1}] := ~even & &[ j >= {n - 2} | ~g[j] : j in 0..{n - 1} ];
  p : assert G ({code} & g[{n - 1}] = b[{n - 1}]);
}}
"""


def gray_table(n):
    """Two numbers and a table of their Gray codes, which is declared before them; a copy of one code is kept."""
    most = 2**n - 1
    code = lambda k: k ^ (k >> 1)  # noqa: E731
    table = "\n".join(f"  table[{k}] := {code(k)};" for k in range(2**n))
    return f"""module main() {{
  full : boolean;
  kept, seen : 0..{most};
  table : array 0..{most} of 0..{most};
  read, write : 0..{most};
  moves, takes : boolean;
{table}
  init(read) := 0;
  init(write) := 0;
  init(kept) := 0;
  full := table[write] = table[(read + {2 ** (n - 1)}) mod {2**n}];
  if (moves & ~full) {{
    next(write) := (write + 1) mod {2**n};
    next(kept) := table[(write + 1) mod {2**n}];
  }}
  if (takes & read ~= write) next(read) := (read + 1) mod {2**n};
  seen := table[write];
  p : assert G (kept = seen);
}}
"""


def counters(n):
    """A counter as a number beside one by bits, which an input stops."""
    return f"""module main() {{
  go : boolean;
  number : 0..{2**n - 1};
  b : array 0..{n - 1} of boolean;
  c : array 0..{n} of boolean;
  init(number) := 0;
  if (go) next(number) := (number + 1) mod {2**n};
  c[0] := go;
  for (i = 0; i < {n}; i = i + 1) {{
    c[i + 1] := c[i] & b[i];
    init(b[i]) := 0;
    next(b[i]) := b[i] ~= c[i];
  }}
  p : assert G (number = {" + ".join(f"(b[{k}] ? {2**k} : 0)" for k in range(n))});
}}
"""


def multiplier(n):
    """A multiplier by bits beside itself with its factors exchanged: rows of adders."""
    rows = lambda product, one, other: "\n".join(  # noqa: E731
        f"""  for (i = 0; i < {n}; i = i + 1) {{
    {product}{k}[i] := ({product}{k - 1}[i + 1] ~= ({one}[i] & {other}[{k}])) ~= {product}c{k}[i];
    {product}c{k}[i + 1] := {product}{k - 1}[i + 1] & {one}[i] & {other}[{k}] | {product}c{k}[i] & ({product}{k - 1}[i + 1] | {one}[i] & {other}[{k}]);
  }}
  {product}c{k}[0] := 0;
  {product}{k}[{n}] := {product}c{k}[{n}];"""
        for k in range(1, n)
    )
    first = lambda product, one, other: f"""  for (i = 0; i < {n}; i = i + 1) {product}0[i] := {one}[i] & {other}[0];
  {product}0[{n}] := 0;"""  # noqa: E731
    sums = ", ".join(f"{product}{k}" for product in "pq" for k in range(n))
    carries = ", ".join(f"{product}c{k}" for product in "pq" for k in range(1, n))
    same = " & ".join([f"p{k}[0] = q{k}[0]" for k in range(n - 1)] + [f"p{n - 1}[{i}] = q{n - 1}[{i}]" for i in range(n + 1)])
    return f"""module main() {{
  a, b : array 0..{n - 1} of boolean;
  {sums} : array 0..{n} of boolean;
  {carries} : array 0..{n} of boolean;
{first("p", "a", "b")}
{rows("p", "a", "b")}
{first("q", "b", "a")}
{rows("q", "b", "a")}
  same : assert G ({same});
}}
"""


FAMILIES = [
    ("wires, arrays", wire_array, [16, 32, 64]),
    ("wires, turned round", wire_reverse, [16, 32, 64]),
    ("wires, structs", wire_struct, [16, 32, 64]),
    ("wires, instances", wire_instances, [16, 32, 64]),
    ("adders by bits", adder_bits, [8, 16, 32]),
    ("adder against numbers", adder_number, [4, 6, 8]),
    ("ALU by bits", alu_bits, [4, 8, 16]),
    ("ALU against numbers", alu_numbers, [4, 6, 8]),
    ("UART by for", uart, [4, 6, 8]),
    ("FIFO, places first", fifo, [8, 16, 32, 64]),
    ("FIFO, places last", fifo_late, [8, 16, 32, 64]),
    ("shift pair, copies", shift_pair, [8, 16, 32, 64]),
    ("token ring", token_ring, [8, 16, 24]),
    ("token ring, pairs", token_pairs, [8, 16]),
    ("round robin", round_robin, [8, 16, 32]),
    ("German, no lemma", german, [2, 3, 4]),
    ("caches", caches, [2, 4, 6]),
    ("memory, index last", memory, [4, 8, 16]),
    ("Gray code", gray, [4, 8, 12]),
    ("table of Gray codes", gray_table, [3, 4]),
    ("counters", counters, [4, 8]),
    ("multiplier", multiplier, [4, 6, 8]),
]
