! What house.inf includes: how long the rhyme is, and who tells it.

Constant LONG;

[ Teller;
    print "J@:urgen";
];
