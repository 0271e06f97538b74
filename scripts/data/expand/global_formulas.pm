// Globals that formulas give, written by a module and by its copy.
// asks P>=1/2 [ F<=12 total=6 ]
dtmc
formula most = N*3;
formula full = total=most;
global total : [-N+2..most] init most>5?0:1;
const int N = 2;
module m
  x : [0..3];
  [] x<3&!full -> 0.5 : (x'=x+1) & (total'=total+1) + 0.5 : true;
endmodule
module n = m [ x=y ] endmodule
