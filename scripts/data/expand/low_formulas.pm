// Lower ends of ranges that formulas give, in a renamed module too.
// asks P>=1/2 [ F<=6 x=y ]
dtmc
const int N = 1;
const int K = 3;
formula low = -(N-2)-1;
formula lowest = low<0?low-1:low;
module m
  x : [low..3];
  u : [-lowest..3];
  [] x<3 -> 0.25 : (x'=x+1) + .75 : (u'=max(x,u));
endmodule
module n = m [ x=y, u=v, N=K ] endmodule
