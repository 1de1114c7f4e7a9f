# tests/dump.c with the code that an XDR compiler makes of xdr/messages.x, for the tests that decode with it: the program `dump` in a folder.
dump_built() {
    cp xdr/messages.x "$1" &&
        (cd "$1" && rpcgen -h -o messages.h messages.x && rpcgen -c -o messages_xdr.c messages.x) &&
        cc -I/usr/include/tirpc -Itests -I"$1" -w -o "$1/dump" tests/dump.c "$1/messages_xdr.c" -ltirpc
}
