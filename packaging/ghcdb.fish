# Completion of ghcdb's command line for fish. The query is the one of the program's comment; fish quotes it, so that
# nothing of it is run.

# Offers the query of the program's comment, if ghcdb could take it: none has a letter past ASCII, or a control.
function __ghcdb_query
    set -l file (string match -- '*.ghc' (commandline -opc))[-1]
    test -f "$file"; or return
    set -l query (string replace -rf '^%[ \t]*Query:[ \t]*' '' < "$file")[1]
    string match -qr '[^ -~]' -- "$query"; or printf '%s\n' "$query"
end

complete -c ghcdb -f -a '(__fish_complete_suffix .ghc)'
complete -c ghcdb -l query -x -a '(__ghcdb_query)' -d 'the goals to start from'
complete -c ghcdb -l load -r -F -d 'a history to start from'
complete -c ghcdb -l schedule -r -F -d 'a schedule to play'
complete -c ghcdb -l workers -x -a 'auto 1 2 4 8 16 32 64' -d 'how many workers make a run'
complete -c ghcdb -l run -d 'tell the answers alone'
complete -c ghcdb -l expect -x -d 'a value that is expected, as X = TERM'
complete -c ghcdb -l check -d 'a session whose status tells what is left'
complete -c ghcdb -l json -d 'the same, as objects of JSON'
complete -c ghcdb -l lesson -r -F -d 'fill a lesson with replies and pictures'
complete -c ghcdb -l dap -d 'the debug adapter of editors'
complete -c ghcdb -l lsp -d 'the language server of editors'
complete -c ghcdb -l picture -d 'a run as an SVG'
complete -c ghcdb -l example -x -a '(ghcdb --example 2> /dev/null)' -d 'the text of an example'
complete -c ghcdb -l help -d 'tell the commands'
complete -c ghcdb -l version -d 'tell the version'
