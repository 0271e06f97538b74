// Constants by cases, of one that is given.
// given N=2
// asks P>=1/2 [ F<=3 x=LAST ]
dtmc
const int N;
const int LAST = FIRST>0?3:BIG?2:1;
const bool BIG = N>=2 ? true : false;
const int FIRST = (BIG ? -1 : 1) * -N;
const double THIRD = BIG ? 1/3 : 0.5;
module m
  x : [0..LAST];
  [] x<LAST -> THIRD : (x'=x+1) + 1-THIRD : true;
endmodule
