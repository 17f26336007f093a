System_file;
Replace DefArt;
Ifndef L;
[ Main; print (a) 5; ];
Replace InDefArt;
End;
[ InDefArt; ];
