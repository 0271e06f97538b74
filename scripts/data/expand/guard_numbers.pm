// Guards over numbers, by each operator and function.
// asks P>=1/2 [ F<=9 x=6 ]
dtmc
const double Q = .5;
module m
  x : [-1..6] init 1;
  y : [0..3];
  [] x+1-y*2/4>0&x<6 -> (x'=x+1);
  [] min(x,y,2)=2 -> (y'=0);
  [] max(x,y)<3&y<3 -> (y'=y+1);
  [] floor(x/2)=1&ceil(x*Q)=2 -> 1/2 : (x'=0) + 1/2 : (y'=3);
  [] pow(x,2)>=9&mod(y,2)!=1 -> (x'=(x)-3);
  [] -x<=-6+2.0*0 -> true;
endmodule
