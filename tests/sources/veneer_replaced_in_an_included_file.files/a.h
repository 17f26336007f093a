System_file;
[ Sp__Pr n; print n; ];
[ CA__Pr o; action = o; ];
[ DefArt o; print o; ];
Global action;
