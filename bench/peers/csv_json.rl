#include "io.h"

%%{
machine m;
alphtype unsigned char;
action out { out(*p); }
action begin { SAY("{\"name\":\""); }
byte = [^",\\\t\r\n] @out | "\\" @{ SAY("\\\\"); } | "\t" @{ SAY("\\t"); };
quoted = "\"" ( byte | "," @out | "\n" @{ SAY("\\n"); } | "\r" @{ SAY("\\r"); } | "\"\"" @{ SAY("\\\""); } )* "\"";
field = quoted | byte*;
main := ( ( field "," @{ SAY("\",\"city\":\""); } field "," @{ SAY("\",\"remark\":\""); } field "\n" @{ SAY("\"}\n"); } ) >begin )*;
}%%
%% write data noentry;
int main(void) {
    int cs;
    ssize_t got;
    %% write init;
    while ((got = read(0, in, sizeof in)) > 0) {
        const unsigned char *p = in, *pe = in + got;
        %% write exec;
        if (cs == m_error) return 1;
    }
    flush();
    return cs < m_first_final;
}
