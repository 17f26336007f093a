! The verbs and their lines. A game adds to them by `Verb` and `Extend` behind the library.

System_file;

Ifndef LIBRARY;
Message fatalerror "This is a part of the library. Include library in its place, by one line of the game.";
Endif;

[ IsDirection; return parent(noun) == compass; ];

Verb 'answer' 'say' 'shout' * topic 'to' creature -> Answer * topic -> Answer;
Verb 'ask' * creature 'about' topic -> Ask * creature 'for' noun -> AskFor;
Verb 'attack' 'hit' 'break' 'kill' 'destroy' 'fight' 'kick' * noun -> Attack;
Verb 'blow' * held -> Blow;
Verb 'burn' 'light' * noun -> Burn * noun 'with' held -> Burn;
Verb 'buy' 'purchase' * noun -> Buy;
Verb 'climb' * noun=IsDirection -> Go * noun -> Climb * 'up' noun -> Climb * 'on'/'in'/'into' noun -> Enter;
Verb 'close' 'shut' * noun -> Close;
Verb 'consult' * noun 'about' topic -> Consult;
Verb 'cut' 'chop' * noun -> Cut;
Verb 'dig' * noun -> Dig * noun 'with' held -> Dig;
Verb 'disrobe' 'doff' * held -> Disrobe;
Verb 'drink' 'sip' 'swallow' * noun -> Drink;
Verb 'drop' 'discard' * multiheld -> Drop * multiexcept 'in'/'into' noun -> PutIn * multiexcept 'on'/'onto' noun -> PutOn;
Verb 'eat' * held -> Eat;
Verb 'empty' * noun -> Empty;
Verb 'enter' * noun -> Enter;
Verb 'examine' 'x//' 'watch' * noun -> Examine;
Verb 'exit' 'leave' * -> Exit * noun -> Exit;
Verb 'fill' * noun -> Fill;
Verb 'get' * multi -> Take * 'out'/'off' -> Exit * 'out' 'of' noun -> Exit * 'off' noun -> Exit
    * 'in'/'on'/'into'/'onto' noun -> Enter * 'up' -> Stand * multiinside 'from'/'off' noun -> Remove
    * multiinside 'out' 'of' noun -> Remove;
Verb 'give' 'feed' 'offer' 'pay' * held 'to' creature -> Give * creature held -> Give reverse;
Verb 'go' 'walk' 'run' * -> GoWhere * noun=IsDirection -> Go * noun -> Enter * 'through'/'into'/'in' noun -> Enter;
Verb 'insert' * multiexcept 'in'/'into' noun -> PutIn;
Verb 'inventory' 'i//' 'inv' * -> Inventory * 'wide' -> InventoryWide * 'tall' -> InventoryTall;
Verb 'jump' * -> Jump * 'over' noun -> JumpOver;
Verb 'kiss' 'hug' 'embrace' * creature -> Kiss;
Verb 'listen' 'hear' * -> Listen * noun -> Listen * 'to' noun -> Listen;
Verb 'lock' * noun 'with' held -> Lock;
Verb 'look' 'l//' * -> Look * 'around' -> Look * 'at' noun -> Examine * 'in'/'on'/'into'/'inside'/'through' noun -> Search
    * 'under' noun -> LookUnder * 'up' topic 'in' noun -> Consult reverse;
Verb 'no' * -> No;
Verb 'open' 'unwrap' * noun -> Open * noun 'with' held -> Unlock;
Verb 'pick' * 'up' multi -> Take * multi 'up' -> Take;
Verb 'pray' * -> Pray;
Verb 'pull' 'drag' * noun -> Pull;
Verb 'push' 'press' 'move' 'shift' * noun -> Push * noun noun=IsDirection -> PushTo;
Verb 'put' * multiexcept 'in'/'into'/'inside' noun -> PutIn * multiexcept 'on'/'onto' noun -> PutOn * 'on' held -> Wear
    * 'down' multiheld -> Drop * multiheld 'down' -> Drop * held 'on' -> Wear;
Verb 'read' * noun -> Examine * 'about' topic 'in' noun -> Consult reverse;
Verb 'remove' * worn -> Disrobe * multi -> Take * multiinside 'from' noun -> Remove;
Verb 'rub' 'clean' 'wipe' 'polish' * noun -> Rub;
Verb 'search' * noun -> Search;
Verb 'set' 'adjust' * noun -> Set * noun 'to' special -> SetTo;
Verb 'show' 'display' * held 'to' creature -> Show * creature held -> Show reverse;
Verb 'sing' * -> Sing;
Verb 'sit' 'lie' * 'on'/'in' noun -> Enter * 'down' 'on'/'in' noun -> Enter;
Verb 'sleep' 'nap' * -> Sleep;
Verb 'smell' 'sniff' * -> Smell * noun -> Smell;
Verb 'sorry' * -> Sorry;
Verb 'squeeze' * noun -> Squeeze;
Verb 'stand' * -> Stand * 'up' -> Stand * 'on'/'in' noun -> Enter;
Verb 'swim' 'dive' * -> Swim;
Verb 'swing' * noun -> Swing;
Verb 'switch' * noun 'on' -> SwitchOn * noun 'off' -> SwitchOff * 'on' noun -> SwitchOn * 'off' noun -> SwitchOff * noun -> SwitchOn;
Verb 'take' 'carry' 'hold' * multi -> Take * 'off' held -> Disrobe * held 'off' -> Disrobe * multiinside 'from'/'off' noun -> Remove
    * multiinside 'out' 'of' noun -> Remove * 'inventory' -> Inventory;
Verb 'taste' * noun -> Taste;
Verb 'tell' * creature 'about' topic -> Tell;
Verb 'think' * -> Think;
Verb 'throw' * held 'at' noun -> ThrowAt * multiheld -> Drop;
Verb 'tie' 'attach' 'fasten' * noun -> Tie * noun 'to' noun -> Tie;
Verb 'touch' 'feel' * noun -> Touch;
Verb 'turn' 'twist' 'rotate' * noun -> Turn * noun 'on' -> SwitchOn * noun 'off' -> SwitchOff * 'on' noun -> SwitchOn
    * 'off' noun -> SwitchOff * noun 'to' special -> SetTo;
Verb 'unlock' * noun 'with' held -> Unlock;
Verb 'wait' 'z//' * -> Wait;
Verb 'wake' 'awaken' * -> Wake * 'up' -> Wake * creature -> WakeOther * creature 'up' -> WakeOther * 'up' creature -> WakeOther;
Verb 'wave' * -> WaveHands * noun -> Wave;
Verb 'wear' 'don' * held -> Wear;
Verb 'yes' 'y//' * -> Yes;

Verb meta 'brief' * -> Brief;
Verb meta 'full' 'fullscore' * -> FullScore * 'score' -> FullScore;
Verb meta 'notify' * 'on' -> NotifyOn * 'off' -> NotifyOff;
Verb meta 'objects' * -> Objects;
Verb meta 'places' * -> Places;
Verb meta 'pronouns' * -> Pronouns;
Verb meta 'quit' 'q//' * -> Quit;
Verb meta 'restart' * -> Restart;
Verb meta 'restore' * -> Restore;
Verb meta 'save' * -> Save;
Verb meta 'score' * -> Score;
Verb meta 'superbrief' 'short' * -> Superbrief;
Verb meta 'transcript' 'script' * -> TranscriptOn * 'on' -> TranscriptOn * 'off' -> TranscriptOff;
Verb meta 'unscript' * -> TranscriptOff;
Verb meta 'verbose' 'long' 'normal' * -> Verbose;
Verb meta 'verify' * -> Verify;
Verb meta 'version' * -> Version;
