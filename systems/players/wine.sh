# How wine is started: its program, its folder below out/, and no lines of its own on standard error. Sourced. WINE_BY may
# have the words of an emulator that runs wine itself: another processor.
#
# setarch -R: at a random address, the heap of a starting wine covers once in some 6,000 runs the page 7FFE0000h, which
# wine needs for itself. It then ends with status 1 before it looks at the program ("failed to map the shared user data").
top=$(cd "$(dirname "$0")/../.." && pwd)
for wine in /usr/lib/wine/wine64 wine64 wine; do command -v "$wine" > /dev/null && break; done
if [ "$WINE_BY" ]; then
    wine="$WINE_BY $wine"
    export WINELOADERNOEXEC=1
elif setarch -R true 2> /dev/null; then
    wine="setarch -R $wine"
fi
export WINEPREFIX="${WINEPREFIX:-$top/out/wine}" WINEDEBUG="${WINEDEBUG:--all}" WINEDLLOVERRIDES='mscoree,mshtml='
