# Completion of psxgpu_tool for bash.
_psxgpu_tool() {
    local word=${COMP_WORDS[COMP_CWORD]}
    local commands='play vram shot frames sums list pixel report flat slim cut demo --help --version'
    if [ "$COMP_CWORD" -eq 1 ]; then
        mapfile -t COMPREPLY < <(compgen -W "$commands" -- "$word")
    elif [ "$COMP_CWORD" -eq 2 ] && [[ ${COMP_WORDS[1]} == @(frames|sums) ]]; then
        mapfile -t COMPREPLY < <(compgen -W marks -- "$word"; compgen -f -- "$word")
    else
        mapfile -t COMPREPLY < <(compgen -f -- "$word")
    fi
}
complete -o filenames -F _psxgpu_tool psxgpu_tool

# Completion of psxgpu: its tools, their options as `--help` has them, and files.
_psxgpu() {
    local word=${COMP_WORDS[COMP_CWORD]}
    if [ "$COMP_CWORD" -eq 1 ]; then
        mapfile -t COMPREPLY < <(compgen -W 'agree audit bisect check compare conform corpus diff film first from-dump from-log fuzz heat join mend packets page picture reduce selftest textures to-dump to-exe trim view' -- "$word")
    elif [ "$COMP_CWORD" -eq 2 ] && [ "${COMP_WORDS[1]}" = corpus ]; then
        mapfile -t COMPREPLY < <(compgen -W 'record check join split glue' -- "$word")
    elif [[ ${COMP_WORDS[COMP_CWORD-1]} == @(--only|--ignore|--name|--blanks|--bits|--view) ]]; then
        mapfile -t COMPREPLY < <(compgen -W "$(psxgpu help "${COMP_WORDS[1]}" "${COMP_WORDS[COMP_CWORD-1]}" 2> /dev/null)" -- "$word")
    elif [ "$COMP_CWORD" -eq 2 ] && [ "${COMP_WORDS[1]}" = help ]; then
        mapfile -t COMPREPLY < <(compgen -W "$(psxgpu help 2> /dev/null | sed -n 's/^  \([a-z-]*\) .*/\1/p')" -- "$word")
    elif [[ $word == -* ]]; then
        local options
        options=$(psxgpu "${COMP_WORDS[1]}" --help 2> /dev/null | grep -oE -e '(^ +|, )--?[a-z][a-z-]*' | tr -d ' ,')
        mapfile -t COMPREPLY < <(compgen -W "$options" -- "$word")
    else
        mapfile -t COMPREPLY < <(compgen -f -- "$word")
    fi
}
complete -o filenames -F _psxgpu psxgpu
