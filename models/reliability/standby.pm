// A standby pump: when the first pump fails, the second is started, and the start may fail.
// Source: cold and hot standby; Trivedi, Probability and Statistics with Reliability, Queuing, and Computer Science (1982).
// A step is a day. A cold spare doesn't age while it waits; a hot one does.
// Parameters: HOT, given with --const=HOT=false; FAILS, how likely a pump that runs fails within a day; STARTS, how likely the
// spare can be started when it is needed, on the day after.
// Try: HOT=true. How good must STARTS be for a spare to be worth it?
dtmc

const bool HOT;
const double FAILS = 0.02;
const double STARTS = 0.9;

formula waiting_fails = HOT ? FAILS : 0;

module first
  first : bool init true;  // whether it runs

  [day] first -> FAILS : (first'=false) + 1-FAILS : true;
  [day] !first -> true;
endmodule

module spare
  spare : [0..2] init 0;  // 0: waits, 1: runs, 2: failed

  [day] spare=0 & first -> waiting_fails : (spare'=2) + 1-waiting_fails : true;
  [day] spare=0 & !first -> STARTS : (spare'=1) + 1-STARTS : (spare'=2);
  [day] spare=1 -> FAILS : (spare'=2) + 1-FAILS : true;
  [day] spare=2 -> true;
endmodule

label "down" = !first & spare=2;
