// Initial values that formulas give, and by cases, in a renamed module too.
// asks P>=1/2 [ F<=6 x=3&y=3 ]
dtmc
const int N = 1;
const int K = 2;
const double Q = 2.50;
formula start = N>1?N:N-1;
formula big = N>1&Q>=2.5;
module m
  x : [0..3] init start;
  b : bool init big?true:false;
  [] x<3&(b|!b) -> (x'=x+1) & (b'=!b);
endmodule
module n = m [ x=y, b=c, N=K ] endmodule
