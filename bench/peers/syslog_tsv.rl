#include "io.h"

%%{
machine m;
alphtype unsigned char;
action out { out(*p); }
action tab { out(9); }
main := ( ([A-Z] [a-z]{2}) $out " "+ ([0-9]{1,2} >tab) $out " " @tab ([0-9]{2} ":" [0-9]{2} ":" [0-9]{2}) $out " " @tab [^ \n]+ $out " " @tab
  [^ :\[\n]+ $out ( ":" @tab | "[" @tab [0-9]+ $out "]" ":" ) " " @tab [^\n]* $out "\n" @out )*;
}%%
%% write data noentry;
int main(void) {
    int cs;
    ssize_t got;
    %% write init;
    while ((got = read(0, in, sizeof in)) > 0) {
        const unsigned char *p = in, *pe = in + got;
        %% write exec;
        if (cs == m_error) return 1;
    }
    flush();
    return cs < m_first_final;
}
