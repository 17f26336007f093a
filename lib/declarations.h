! The attributes, properties, variables and arrays that the library and a game share, the directions and the player.

System_file;

Ifndef LIBRARY;
Message fatalerror "This is a part of the library. Include library in its place, by one line of the game.";
Endif;

! What a thing is.
Attribute animate;          ! alive
Attribute clothing;         ! can be worn
Attribute container;        ! things can be put into it
Attribute door;             ! leads from one room to another
Attribute edible;           ! can be eaten
Attribute enterable;        ! the player can get into it or onto it
Attribute lockable;         ! can be locked, with its key
Attribute openable;         ! can be opened and closed
Attribute scenery;          ! belongs to the room's description; cannot be taken
Attribute static;           ! cannot be taken
Attribute supporter;        ! things can be put onto it
Attribute switchable;       ! can be switched on and off
Attribute talkable;         ! can be spoken to, though it is not alive
Attribute transparent;      ! what is in it can be seen

! How it is at the moment.
Attribute absent;           ! is found in no room for now
Attribute concealed;        ! is not mentioned
Attribute general;          ! for the game's own use
Attribute light;            ! gives light; of a room: has light
Attribute locked;
Attribute moved;            ! has been carried
Attribute on;               ! is switched on
Attribute open;
Attribute visited;          ! of a room: the player was there, in the light
Attribute worn;
Attribute listed;           ! for the library's own use

! How it is called, and counted.
Attribute female;           ! her
Attribute male;             ! him
Attribute proper;           ! its name has no article
Attribute several;          ! its name is one of several things: them
Attribute scored;           ! to take it, or to enter it first, counts

! Rules: routines, and for some of them texts.
Property additive before;
Property additive after;
Property additive life;
Property additive orders;
Property additive react_before;
Property additive react_after;
Property additive each_turn;
Property additive describe;
Property additive daemon;
Property additive time_out;
Property invent;
Property parse_name;

! Texts, or routines that print them.
Property description;
Property initial;
Property inside_description;
Property when_open;
Property when_closed;
Property when_on;
Property when_off;
Property cannot_go;
Property printed_name;
Property article;
Property plural;
Property list_together;

! Objects and numbers.
Property found_in;
Property add_to_scope;
Property key;
Property door_to;
Property door_direction;
Property capacity 100;
Property time_left;
Property number;

! The ways out of a room.
Property north;
Property south;
Property east;
Property west;
Property northeast;
Property northwest;
Property southeast;
Property southwest;
Property up;
Property down;
Property inside;
Property outside;

! What the object `game` has.
Property headline;
Property opening;
Property start;
Property message;
Property choose;
Property epilogue;
Property darkness;

! The present action.
Global action;
Global actor;
Global noun;
Global second;
Global noun_is_value;       ! the noun is no object: NUMBER_VALUE, WORD_VALUE, or 0 where it is one
Global second_is_value;
Global is_meta;             ! the verb is one about the game, which takes no time

! The state of the game.
Global player;
Global location;
Global is_lit;
Global score;
Global told_score;
Global turns;
Global ending;              ! 0 while the game is played, 1 lost, 2 won, or what the game makes of it
Global things_score;        ! the points for things, and those for rooms
Global rooms_score;
Global look_mode;           ! 0 brief, 1 verbose, 2 superbrief
Global inventory_is_wide;   ! what one has is told in a sentence
Global notifies;
Global can_undo;

! What the parser knows of the command.
Global word_at;             ! the next word, counted from 1
Global command_at;          ! the first word
Global command_end;         ! the last one
Global next_command;        ! the first word of the command behind it, THE_REST or 0
Global rest_at;             ! where in the line that begins what stands behind a full stop
Global spoken_to;           ! who is spoken to in a sentence, of which there may be several commands
Global verb_at;
Global verb_word;
Global verb_lines;
Global parsed_number;
Global topic_from;          ! a topic's first word, and how many it has
Global topic_words;
Global it_thing;
Global him_thing;
Global her_thing;
Global them_thing;          ! -1 where they are those of `multiple`

! What reading a line of grammar finds.
Global line_action;
Global line_reverse;
Global line_count;          ! how many values stand in `values`
Global line_multiple;       ! the place among them of a list, or -1
Global line_ahead;          ! the second noun, where a line is read twice to know it
Global list_is_full;        ! more things were meant than MOST_OBJECTS
Global phrase_all;
Global phrase_plural;
Global phrase_number;
Global is_choice;           ! of several things one was taken that is worth more
Global chosen_thing;        ! that one, which is told
Global fault;               ! the message of the best failure, the word at which it came, and what it is about
Global fault_at;
Global fault_thing;
Global missing_line;        ! a line of which the end is not there, and the token that is asked for
Global missing_token;
Global unclear_at;          ! the word of a phrase that means several things, with its token
Global unclear_kind;
Global unclear_filter;
Global unclear_routine;
Global unclear_count;       ! how many values stood before it
Global oops_place;
Global oops_length;
Global oops_command;

! What looking through the scope does.
Global scope_use;
Global scope_thing;
Global scope_found;
Global scope_stage;
Global match_words;
Global all_kind;

Global details;
Global group;               ! the value of `list_together` of the things that are listed
Global invent_stage;
Global tracing;             ! 1 where actions are told, 3 with the lines of grammar, 0 else

! The line of the commands that are done, the text of the last command, and the line that is read. Some interpreters write more
! letters into that than it has room for, and a name may be longer than it, whose article is looked for there: behind it stands what
! is made anew for each command, and then the words, which are made anew for each line.
Array line -> (LINE_LENGTH + 3);
Array saved -> (LINE_LENGTH + 3);
Array multiple --> (MOST_OBJECTS + 1);
Array timers --> MOST_TIMERS;
Array first_letters --> 1;
Array answer -> (LINE_LENGTH + 3);
Array matches --> (MOST_OBJECTS + 1);
Array gathered --> (MOST_OBJECTS + 1);
Array values --> 3;
Array value_kinds -> 3;
Array words -> (4 * MOST_WORDS + 2);

Constant NUMBER_VALUE = 1;
Constant WORD_VALUE = 2;

Constant END_OF_COMMAND = -1;
Constant THE_REST = -1;     ! the next command stands behind a full stop

! What a routine among the tokens of a line answers, if it is not an object.
Constant NOT_PARSED = -1;
Constant PARSED_AS_WORDS = 0;
Constant PARSED_AS_NUMBER = 1;

! The kinds of a noun token as the grammar has them, and those of tokens that are not noun tokens.
Constant NOUN_KIND = 0;
Constant HELD_KIND = 1;
Constant MULTI_KIND = 2;
Constant MULTIHELD_KIND = 3;
Constant MULTIEXCEPT_KIND = 4;
Constant MULTIINSIDE_KIND = 5;
Constant CREATURE_KIND = 6;
Constant SPECIAL_KIND = 7;
Constant NUMBER_KIND = 8;
Constant TOPIC_KIND = 9;
Constant FILTER_KIND = 10;
Constant ATTRIBUTE_KIND = 11;
Constant SCOPE_KIND = 12;

Constant PREPOSITION_TOKEN = 2;
Constant FILTER_TOKEN = 3;
Constant ATTRIBUTE_TOKEN = 4;
Constant SCOPE_TOKEN = 5;
Constant ROUTINE_TOKEN = 6;
Constant LAST_TOKEN = 15;

! What the scope is looked through for.
Constant TO_MATCH = 0;
Constant TO_COLLECT = 1;
Constant TO_SEEK = 2;
Constant TO_RUN = 3;
Constant TO_LIST = 4;
Constant TO_MEET = 5;

Fake_action Receive;        ! something is put into it or onto it
Fake_action LetGo;          ! something is taken from it
Fake_action ThrownAt;       ! something is thrown at it
Fake_action Order;          ! it is told to do something

Class Direction
    has scenery;

Object compass "compass";
Direction the_north "north" compass with name 'north' 'n//', door_direction north;
Direction the_south "south" compass with name 'south' 's//', door_direction south;
Direction the_east "east" compass with name 'east' 'e//', door_direction east;
Direction the_west "west" compass with name 'west' 'w//', door_direction west;
Direction the_northeast "northeast" compass with name 'northeast' 'ne', door_direction northeast;
Direction the_northwest "northwest" compass with name 'northwest' 'nw', door_direction northwest;
Direction the_southeast "southeast" compass with name 'southeast' 'se', door_direction southeast;
Direction the_southwest "southwest" compass with name 'southwest' 'sw', door_direction southwest;
Direction the_up "up" compass with name 'up' 'u//', door_direction up;
Direction the_down "down" compass with name 'down' 'd//', door_direction down;
Direction the_inside "inside" compass with name 'inside' 'in', door_direction inside;
Direction the_outside "outside" compass with name 'outside' 'out', door_direction outside;

Object yourself "yourself"
    with name 'me' 'myself' 'yourself', description [; Tell(EXAMINE_SELF); ],
    has animate concealed proper transparent;
