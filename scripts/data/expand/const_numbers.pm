// Constants of numbers, by each operator and function.
// asks P>=1/2 [ F<=4 x=TOP ]
probabilistic
const int TOP=mod(D*B-1,4)+min(D,B,5)+max(1,D)-ceil(2.5)-floor(-.5)- -D-2;
const int D = (2);
const B=3;
const double HALF = 1/D/1.0;
const double Q = pow(HALF,2)+5e-1*HALF;
module m
  x:[0..TOP];
  [] x<TOP -> Q:(x'=x+1)+1-Q:(x'=0);
endmodule
