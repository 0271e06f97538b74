// Labels by cases and of formulas, before all else, with comments and blanks everywhere.
// asks P>=1/2 [ F<=6 "done" ]
// asks P>=1/2 [ G<=4 "mixed"|!"done" ]
probabilistic label	"done"=x=2?done:false; label "mixed" = (x>0 ? half : 0.5)
  = 1 / // one half
  2;
formula done = b & x >= 2 ; formula half = x=1?1/2:0.5 ;
module
  m x:[ 0 .. 2 ]init 0;b:bool
  ;[ ]x<2->half:( x ' = x+1 )&(b'=true)+ 1-half :true ;[]x=2&!b->( b'=true );
endmodule
