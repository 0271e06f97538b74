// Constants that are truth values.
// asks P>=1/2 [ G<=5 b=START ]
dtmc
const bool YES=true;
const bool NO=false;
const bool START = !NO&(YES|NO)&1<2&1<=1&3>2&2>=2&1!=2&1=1.0&(YES<=>!NO)&(NO=>YES);
const bool OTHER = YES!=NO;
module m
  b : bool init START;
  [] b -> 0.9:(b'=b) + 0.10:(b'=OTHER&NO);
endmodule
