! A library for games of rooms, things, people and commands, for versions 5 and 8.
!
! A game has one line, before its own classes and objects:
!
!     Include "library";
!
! and is compiled with this folder in its path: inform +lib game.inf. Behind the line a game declares an object `game`: its short
! name is the title, its property `start` the first room. lib/README.md has all the rest.
!
! Each setting of the compiler may be as it stands without a word of the command. A game of one room is compiled with these, also
! with the word -D, without a warning; other rooms, things and verbs add to them:
!     MAX_SYMBOLS 780, MAX_DICT_ENTRIES 230, MAX_OBJECTS 21, MAX_VERBS 96, MAX_ACTIONS 106, MAX_LINESPACE 1,600,
!     MAX_PROP_TABLE_SIZE 320, MAX_STATIC_DATA 1,700, MAX_LOW_STRINGS 2, MAX_CODE 28,400, MAX_STATIC_STRINGS 400,
!     MAX_REFS 1,800, MAX_LABELS 490, MAX_EXPRESSION_NODES 62, MAX_QTEXT_SIZE 70
!
! Constants that a game may declare before the line, with the numbers that they have otherwise:
!     LINE_LENGTH 100, MOST_WORDS 30, MOST_OBJECTS 32, MOST_TIMERS 8    the sizes of what the parser and the timers keep
!     MOST_CARRIED 100, MOST_SCORE 0, OBJECT_SCORE 4, ROOM_SCORE 5     the rules of the game
!
! `Replace R;` before the line has a game's own routine R stand in place of the library's. Two more files may be included: `more` behind
! this one, for more words, and `names` behind all objects, for warnings of names that mean nothing here.

System_file;

Ifdef LIBRARY;
Message fatalerror "The library is included twice.";
Endif;
Ifdef Main;
Message error "The library has the routine Main. What a game does at its start stands in the property opening of the object game.";
Endif;
Ifdef game;
Message error "The object game has to stand behind the line that includes the library.";
Endif;

Constant LIBRARY = 1;

Default LINE_LENGTH 100;
Default MOST_WORDS 30;
Default MOST_OBJECTS 32;
Default MOST_TIMERS 8;
Default MOST_CARRIED 100;
Default MOST_SCORE 0;
Default OBJECT_SCORE 4;
Default ROOM_SCORE 5;

Iftrue LINE_LENGTH < 40 || LINE_LENGTH > 200;
Message error "LINE_LENGTH has to be 40 to 200.";
Endif;
Iftrue MOST_WORDS < 8 || MOST_WORDS > 60;
Message error "MOST_WORDS has to be 8 to 60.";
Endif;
Iftrue MOST_OBJECTS < 4;
Message error "MOST_OBJECTS has to be 4 at least.";
Endif;
Iftrue MOST_TIMERS < 1;
Message error "MOST_TIMERS has to be 1 at least.";
Endif;

Include ">declarations";
Include ">messages";
Include ">printing";
Include ">lines";
Include ">scope";
Include ">nouns";
Include ">parser";
Include ">rules";
Include ">turns";
Include ">places";
Include ">things";
Include ">people";
Include ">session";
Ifdef DEBUG;
Include ">debugnames";
Include ">checks";
Include ">debugging";
Endif;
Include ">grammar";
