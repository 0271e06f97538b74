// Weights that formulas give, by cases, left out, and in renamed modules with constants of their own.
// asks P>=1/2 [ F<=6 x=3&y=3 ]
dtmc
const double D = 9/10;
const double Q = 0.75;
formula good = x=0?1:D;
formula bad = 1-good;
module m
  x : [0..3];
  [] x<3 -> good : (x'=x+1) + bad : (x'=0);
  [] x=3 -> true;
endmodule
module n = m [ x=y, D=Q ] endmodule
module o
  z : [0..2];
  [] z=0 -> 1:true;
  [] z>0 -> good*bad+1-good*bad:true;
endmodule
