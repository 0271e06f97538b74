// Formulas that are truth values, by each operator.
// asks P>=1/2 [ F<=5 "same" ]
// asks P>=1/2 [ same U<=5 far ]
dtmc
formula on = b;
formula off=!on;
formula never = false;
formula always = true|never;
formula near = x=0|x!=2&x<1;
formula far = x>=2;
formula same = on<=>far;
formula implies = far=>on;
formula mid = x<=1&x>0;
module m
  x : [0..2];
  b : bool;
  [] always&near -> 1/2 : (x'=x+1)&(b'=off) + 1/2 : (b'=!off);
  [] mid -> (x'=2);
  [] far&implies -> (x'=0) & (b'=same);
endmodule
label "same" = same;
label "never" = never;
