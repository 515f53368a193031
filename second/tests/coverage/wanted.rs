//! The table of all facts that the cases of a stream are to show. A word "a|b" stands
//! for each of these, so that a row stands for all that its words make. A request adds
//! its rows here.

pub const WANTED: &str = r#"
N 0|10|11; R 0|1|2|3|4|5|6|7|8|9; W 0|6|14|15|16|18; F 0|3|4|5|6|7|8|14|15|17|18
J 0|12|13|14|15|18; J first|second 3|4|5|6|7|8|17; D 0|30|31|32; Y|B 0|30; T 0|1|33; P 0|1
N memory 63|32769 11; N memory 64|32768 0
N type 23|24|25|26|31|32|43|44|45|55|5E|61|62|63|64|65|66|67|68|69|6A|6B|6C|6D|6E|6F|70|71|72|74|75
reached type 23|24|25|26|31|32|43|44|45|55|5E|61|62|63|64|65|66|67|68|69|6A|6B|6C|6D|6E|6F|70|71|72|74|75
hour 0|23 0; hour 24 1; minute 0|59 0; minute 60 1; format S|M 0; type 1; speaker 0|1 0
speaker 2 1; offset -9|9 0; offset -10|10 1; register 00|10|11 1; memory 64|32768 0
memory 63|32769 1; memory 64 without files; files 0|64 0; files 65 1; 64 files in little memory
64 files to the end; unused +1|-1|+11|-11|nothing|all; index zero|many|two|missing|+1|-1|+11
index of another; index stray 0|?; index stray without files; index stray at a file
label twice Some(0)|Some(1)|None true; label twice None false; content 1|4; behind zeros
behind files first|last; 1 no SIZE; 1 record byte 0|1|2|3|4|5|6|7|8|9|10
25 record label 0|?|1F|7F; 25 record type a|b|@|C; 25 record protection u|l|T|M
25 record digits /|:|@|G|`|g|E|C|9; reply 0|1 0; reply -1|-2 2; R empty 3; first byte 4
standard lead 5|6 1 0; standard lead 0 6|7 0; printable lead 0|1|6 1 0; printable lead 0 2 0
standard lead 4 1 4; standard lead 0 5 4; standard lead 5 2 6; printable lead 0 0 4
pairs 1|16 0; pairs 17 6; no pair 6; comma at the end 6; header type 6; no STX 6; blocks 1|64 0
blocks 65 7; no EOT 7; command 0|4 7; B|F|H|J|N too soon; standard 8192 0
standard 8193 3; translated 8192 0; translated 8193 3; printable 24576 0; printable 24577 3
R|F|J small escape|sum; R|F|J needless escape; R|F|J small address 1|2
beside escape|sum|address|E7 /|:|@|G|`|g; unprintable 00|04|0A|0D|1F|7F|80|FF; cut escape 1|2
reached by 00|==|=?|?=|??|small; reached by type !|?|Z; missed high|low digit
missed at 00 by =?|?=|??; missed type; missed type by case; missed type 0|"
block A|B|G|H 0|20|22|23; block A|G 24; block E|F 22; block E20|E!|E'|E;|E7|ET|E4 0|20|22
block E$ 0|20|25|26|27; block F20|F!|F'|F;|F$|F#|F* 0|20|22
block E#|E*|E5|E&|E2|E"|E8|Et|E05|F7|F4|FT|F5|F&|F"|Ft|F05|C|D|I|J|M|N|O|a|b|e|f|g|h|@|05 21
read|write 23 type|gone|case|free|none|below|above; A|G of many first|middle|last
A|B|G|H label 20|7E; A|B|G|H new; A|G moved; A|G beside the other case; A|G message +0 0
A|G message +1 24; A|G emptied|shortened; B|H full|empty
A|B|G|H|E20|E!|E'|E;|E7|ET|E4|E$|F20|F!|F'|F;|F$|F#|F* of many; each of 64 files written
64 blocks done; all done and a reply; reply without data
first refused later 20|21|22|23|24|25|26|27; E20 0000|2359 0; E20 2400|2360 22
E! ff|fF|Ff|0F|F0 22; E' s|m 22; ET +0|-0|+9|-9 0; ET +/|+:|*5|,5 22; small E7 0|1
board|set|D|Y|B last|after 1|2|2leap|3|4|5|6|7|8|9|10|11|12; board|D|Y|B day 0|255
board|D|Y|B month 0|13|255; set month 0|13; set day 0; board year 2100|2255
D|Y|B year 0|1999|2100|65535; list off 0 rest false 0; list off -1 rest true 0
list off 1 rest false 27; list off 0 rest true 27; list of 0|64 0; list of 65 25; rest not last
list and 1|10 25; list STRING 1|125; list start 00|8F|FD|FE|FF; list stop 00|8F; offset kept
small SIZE|QQQQ; labels in both cases; sum off 1|-1|256|-32768|-2|-3|-5; sum of capitals
sum of small letters; 20|21|22|23|24|25|26|27 on a clear register; E4|F* bit 0|1|2|3|4|5 is 0|1
result 1|2|3 8192 0; result 1|2|3 8193 1; W|F|J output exact|longer|short 1|2|3
output none; J letters; J case of a type; J blocks 64 0; J blocks 65 1; 16 command|data 4
weekday 0|1|2|3|4|5|6|7; days 0|1|-1|36524|-36524|Less|Equal|Greater; B true false
B false true|false; D count -32768|-1200|1200|32767 31; D count -1199|1199 0|32; D to -1|1200 32
D to 0|1199 0; D Less years Less|Equal; D Greater years Greater; D day 31 to 28|29|30
D day 30 to 28|29; D day 29 to 28|29; D leap day kept; D whole years back
T offset -128|-10|10|127 1; T offset -9|9 0; T reading -32768|-129|128|32767 33
T reading -128|127 0; T sum -137|-119|118|136; P fixed 00|10|11 1; P bit 0|1|2 comes 0|1 is 0|1
P bit 3|4|5|7 comes 1 is 0; P not mended; P settings of no board; order 1 2|frame; order 2 frame
order 15 6|first; order 6 16; order 16 18; order first second; order 17 12; order 12 13; order 13 18; order 10 11; order 20 21|22
order 22 23; order 25 26|27; order 26 27; order 30 31|32; order 31 32; order 1 33
R 28; J 19; start in 4185|little 28; start in 4186|4187|much 0; order 1|2|7|8|9 28
start missed with room; start over 0|1|3|26|64 files; start over contents
start keeps the address|offset|register; start and done true refused true|false
start and done false refused true; start reached by 00|==|=?|?=|??|small
start missed at 00 by =?|?=|??; start missed high|low digit; start A|B|E$|E7|F$|F#|F* done
start block 20|21|22|23|24|25|26|27
R|W|F|J start beside 6; start beside true true|false; start beside false true
W|F start 1|2|3 0; W|F start small; J start both 12|15|17|19; J start true|false 12
J start letters 19; order 19 13|14|18
"#;
