# Completion of psxgpu_tool and psxgpu for fish.

complete -c psxgpu_tool -n __fish_use_subcommand -f \
    -a 'play vram shot frames sums list pixel report flat slim cut demo --help --version'
complete -c psxgpu_tool -n '__fish_seen_subcommand_from frames sums' -a marks

function __psxgpu_tool_of
    set -l words (commandline -opc)
    test (count $words) -gt 1; and echo $words[2]
end

function __psxgpu_options
    psxgpu (__psxgpu_tool_of) --help 2> /dev/null | string match -r -a -- '(?:^ +|, )(--?[a-z][a-z-]*)' |
        string match -r -- '^--?[a-z][a-z-]*$' | sort -u
end

function __psxgpu_is_value
    string match -q -r -- '^--(only|ignore|name|blanks|bits|view)$' (commandline -opc)[-1]
end

complete -c psxgpu -n __fish_use_subcommand -f -a 'agree audit bisect check compare conform corpus diff film first from-dump \
    from-log fuzz heat help join mend packets page picture reduce selftest textures to-dump to-exe trim view'
complete -c psxgpu -n '__fish_seen_subcommand_from corpus; and test (count (commandline -opc)) -eq 2' -f \
    -a 'record check join split glue'
complete -c psxgpu -n 'string match -q -- "-*" (commandline -ct)' -f -a '(__psxgpu_options)'
complete -c psxgpu -n __psxgpu_is_value -f -a '(psxgpu help (__psxgpu_tool_of) (commandline -opc)[-1] 2> /dev/null)'
