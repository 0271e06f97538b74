// Upper ends of ranges by conditions, of each operator on truth values.
// asks P>=1/2 [ F<=5 a=b ]
dtmc
const bool ON = true;
module m
  a : [0..true?3:1];
  b : [0..!ON|false?1:2];
  c : [0..1<2&2>1?2:1];
  d : [0..1<=2&(ON=>3>=3)?4:1];
  e : [0..(ON<=>1=1.5)?3:2];
  f : [0..ON!=false?3:1];
  [] a<3 -> 1/2 : (a'=a+1) & (b'=c) + 1/2 : (c'=min(a,2)) & (d'=f+1) & (e'=b) & (f'=2);
endmodule
