#include "io.h"
static struct field first;
%%{
machine m;
alphtype unsigned char;
action hold { hold(&first, *p); }
action out { out(*p); }
action swap { out(44); say(&first); out(*p); }
main := ( [^,\n]* $hold "," [^,\n]* $out ( "\n" @swap | "," @swap [^\n]* $out "\n" @out ) )*;
}%%
%% write data noentry;
int main(void) {
    int cs;
    ssize_t got;
    %% write init;
    while ((got = read(0, in, sizeof in)) > 0) {
        const unsigned char *p = in, *pe = in + got;
        %% write exec;
        if (cs == m_error) return 1;
    }
    flush();
    return cs < m_first_final;
}
