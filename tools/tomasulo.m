-- The machine of examples/tomasulo_fault.smv with its second map, for Rumur, an explicit-state checker with symmetry: what docs/MEASURED.md has beside `confirm`.
-- sed 's/WSIZE/3/; s/RSIZE/3/; s/TSIZE/3/' tools/tomasulo.m > t.m && rumur --threads 1 --output t.c t.m && gcc -O2 -mcx16 -std=c11 t.c -lpthread -latomic -o t && ./t
-- The first rules give the registers and the function any contents; what the machine will not read is undefined. `st.ta` is left out: no station reads it, which is the fault.
type WORD : scalarset(WSIZE); REG : scalarset(RSIZE); TAG : scalarset(TSIZE);
var
  ready : boolean;
  f : array [WORD] of WORD;
  resvd : array [REG] of boolean;
  tag : array [REG] of TAG;
  val, r : array [REG] of WORD;
  valid, ga : array [TAG] of boolean;
  va, a : array [TAG] of WORD;

startstate
  ready := false;
  undefine f; undefine val; undefine r; undefine tag; undefine va; undefine a;
  for k : REG do resvd[k] := false; end;
  for i : TAG do valid[i] := false; ga[i] := false; end;
end;

ruleset k : REG; w : WORD do
  rule "a register" !ready & isundefined(val[k]) ==>
    val[k] := w; r[k] := w;
  end;
end;

ruleset v : WORD; w : WORD do
  rule "the function" !ready & isundefined(f[v]) ==>
    f[v] := w;
  end;
end;

rule "begin" !ready & (forall k : REG do !isundefined(val[k]) end) & (forall v : WORD do !isundefined(f[v]) end) ==>
  ready := true;
end;

procedure step(issue : boolean; slot : TAG; src : REG; dst : REG; go : boolean; bt : TAG);
var bw : WORD; o : WORD; taken : boolean; gets : boolean; iss : boolean; bv : boolean;
begin
  iss := issue & !valid[slot];
  bv := go & valid[bt] & ga[bt];
  if bv then bw := f[va[bt]]; endif;
  o := r[src];
  gets := !resvd[src] | bv & tag[src] = bt;
  -- Stations that wait take the word; the one that gives it is free.
  if iss then
    valid[slot] := true;
    ga[slot] := gets;
    if gets then
      if resvd[src] then va[slot] := bw; else va[slot] := val[src]; endif;
    endif;
    a[slot] := o;
  endif;
  if bv then
    for i : TAG do
      if valid[i] & !ga[i] & !(iss & i = slot) then ga[i] := true; va[i] := bw; endif;
    end;
    valid[bt] := false; ga[bt] := false; undefine va[bt]; undefine a[bt];
    for k : REG do
      if resvd[k] & tag[k] = bt then resvd[k] := false; undefine tag[k]; val[k] := bw; endif;
    end;
  endif;
  if iss then
    resvd[dst] := true; tag[dst] := slot; undefine val[dst];
    r[dst] := f[o];
  endif;
end;

ruleset slot : TAG; src : REG; dst : REG; issue : boolean; go : boolean; bt : TAG do
  rule "step" ready ==> step(issue, slot, src, dst, go, bt); end;
end;

invariant "stations" forall i : TAG do valid[i] & ga[i] -> va[i] = a[i] end;
