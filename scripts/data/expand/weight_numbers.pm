// Weights, by each operator and function.
// asks P>=1/2 [ F<=9 x=8 ]
dtmc
const double D = 0.125;
module m
  x : [0..8];
  [] x=0 -> D+D:(x'=1) + 1-D-D:(x'=0);
  [] x=1 -> D*2*2:(x'=2) + D/D/2:(x'=0);
  [] x=2 -> 1/4:(x'=3) + .25:(x'=3) + 25e-2:(x'=3) + (1/4):true;
  [] x=3 -> min(D,1,x):(x'=4) + max(D,7*D):(x'=4);
  [] x=4 -> floor(D):(x'=0) + ceil(D):(x'=5);
  [] x=5 -> pow(2*D,1):(x'=6) + pow(1,0)-D*2:(x'=6);
  [] x=6 -> mod(x,5):(x'=7) + -0:(x'=0);
  [] x=7 -> 1:(x'=8);
endmodule
