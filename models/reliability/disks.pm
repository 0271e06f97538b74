// A mirrored pair of disks: the data is lost when one disk fails while the other isn't whole.
// Source: Patterson, Gibson and Katz, A case for redundant arrays of inexpensive disks (1988).
// A step is a visit to one of the two disks, either with the same probability: two commands may be taken, one of each
// module. A failed disk is replaced at a visit while spares are left, and then the new one copies the data.
// Parameters: FAILS and OLD_FAILS, how likely a disk has failed since the last visit, where the second disk is an old one;
// COPIED, how likely a new disk is found whole; SPARES.
// Try: one more spare, against a faster copy.
dtmc

const double FAILS = 0.005;
const double OLD_FAILS = 4*FAILS;
const double COPIED = 0.5;
const int SPARES = 2;

global spares : [0..SPARES] init SPARES;
global lost : bool init false;

module disk1
  disk1 : [0..2] init 0;  // 0: whole, 1: failed, 2: copies

  [] !lost & disk1=0 -> FAILS : (disk1'=1) & (lost'=disk2!=0) + 1-FAILS : true;
  [] !lost & disk1=1 & spares>0 -> (disk1'=2) & (spares'=spares-1);
  [] !lost & disk1=1 & spares=0 -> true;
  [] !lost & disk1=2 -> COPIED : (disk1'=0) + 1-COPIED : true;
endmodule

// names of constants are replaced like those of variables: the second disk is of another kind
module disk2 = disk1 [ disk1=disk2, disk2=disk1, FAILS=OLD_FAILS ] endmodule

label "whole" = disk1=0 & disk2=0;
