-- The machine of examples/pipeline_fault.smv with its first map, for Rumur, an explicit-state checker with symmetry: what docs/MEASURED.md has beside `confirm`.
-- sed 's/RSIZE/3/; s/WSIZE/3/' tools/pipeline.m > p.m && rumur --threads 1 --output p.c p.m && gcc -O2 -mcx16 -std=c11 p.c -lpthread -latomic -o p && ./p
-- The first rules give the registers and the function any contents. Mended, `opa` has one line more: if wbv & wbd = src then return wbw; endif;
type REG : scalarset(RSIZE); WORD : scalarset(WSIZE);
var
  ready : boolean;
  reg, r : array [REG] of WORD;
  f : array [WORD] of WORD;
  exv, wbv : boolean;
  exd, wbd : REG;
  exw, wbw : WORD;

function opa(src : REG) : WORD;
begin
  if exv & exd = src then return f[exw]; endif;
  return reg[src];
end;

startstate
  ready := false;
  undefine reg; undefine r; undefine f;
  exv := false; wbv := false;
  undefine exd; undefine wbd; undefine exw; undefine wbw;
end;

ruleset k : REG; w : WORD do
  rule "a register" !ready & isundefined(reg[k]) ==>
    reg[k] := w; r[k] := w;
  end;
end;

ruleset v : WORD; w : WORD do
  rule "the function" !ready & isundefined(f[v]) ==>
    f[v] := w;
  end;
end;

rule "begin" !ready & (forall k : REG do !isundefined(reg[k]) end) & (forall v : WORD do !isundefined(f[v]) end) ==>
  ready := true;
end;

ruleset src : REG; dst : REG; issue : boolean do
  rule "step" ready ==>
  var o : WORD; a : WORD; w : WORD;
  begin
    o := opa(src);
    w := f[r[src]];
    if exv then a := f[exw]; endif;
    if wbv then reg[wbd] := wbw; endif;
    wbv := exv;
    if exv then wbd := exd; wbw := a; else undefine wbd; undefine wbw; endif;
    exv := issue;
    if issue then exd := dst; exw := o; r[dst] := w; else undefine exd; undefine exw; endif;
  end;
end;

invariant "operands" ready -> forall src : REG do opa(src) = r[src] end;
