# Completions of matedesk for bash: commands, options, the values of --bound, --moves, --workers and DEPTH, codes, and files. A FEN has none.

_matedesk() {
    local word=${COMP_WORDS[COMP_CWORD]} before=${COMP_WORDS[COMP_CWORD - 1]} command=${COMP_WORDS[1]} options depth=3 files=
    # bash makes a word of the = of an option.
    [[ $before != '=' ]] || before=${COMP_WORDS[COMP_CWORD - 2]}
    [[ $word != '=' ]] || word=
    COMPREPLY=()
    if ((COMP_CWORD == 1)); then
        options='-h --help -V --version'
        [[ $word == -* ]] || options='solve verify tree import serve replay uci look play moves perft explain sheet'
        mapfile -t COMPREPLY < <(compgen -W "$options" -- "$word")
        return
    fi
    # With --lines it is another command.
    [[ $command != @(look|moves|perft) || " ${COMP_WORDS[*]:2:COMP_CWORD - 2} " != *' --lines '* ]] || command+=' --lines'
    case $command in
    solve) options='--bound --memo --memory --limit --workers --json --from --progress --record --fen -h --help' ;;
    verify) options='--bound --memo --memory --limit --workers --import --letters --fen-letters --header --json --from --progress --record --fen -h --help' ;;
    tree) options='--bound --moves --defences --set-play --tries --column --figurines --letters --lines --limit --workers --json --from --progress --record --fen -h --help' ;;
    sheet) options='--solutions --figurines --letters --title --bound --memo --memory -h --help' ;;
    import) options='--keep --bound --letters --fen-letters -h --help' ;;
    serve) options='--workers --bound --memo --memory --progress -h --help' ;;
    look) options='--board --flip --svg --lines -h --help' ;;
    moves) options='--coordinates --fen --json --lines -h --help' ;;
    perft) options='--divide --lines -h --help' ;;
    'look --lines') options='--board --flip -h --help' ;;
    replay | uci | play | explain | *' --lines') options='-h --help' ;;
    *) return ;;
    esac
    case $command,$before,$word in
    solve,--bound,* | verify,--bound,* | tree,--bound,* | tree,--moves,* | sheet,--bound,* | serve,--bound,*) mapfile -t COMPREPLY < <(compgen -W "$(echo {1..15})" -- "$word") ;;
    tree,--letters,* | sheet,--letters,* | import,--letters,* | verify,--letters,* | *,--fen-letters,*) mapfile -t COMPREPLY < <(compgen -W 'cs da de en es et fi fr hu is it nl no pl pt ro ru sv' -- "$word") ;;
    solve,--workers,* | verify,--workers,* | tree,--workers,* | serve,--workers,*) mapfile -t COMPREPLY < <(compgen -W "$(echo {1..16})" -- "$word") ;;
    solve,--memo,* | solve,--limit,* | verify,--memo,* | verify,--limit,* | tree,--lines,* | tree,--limit,* | sheet,--memo,* | sheet,--title,* | serve,--memo,* | *,--memory,* | *,--from,*) ;;
    'perft --lines,--lines,' | 'perft --lines,--lines,'[!-]*) mapfile -t COMPREPLY < <(compgen -W "$(echo {0..6})" -- "$word") ;;
    *' --lines,'*,-*) mapfile -t COMPREPLY < <(compgen -W "$options" -- "$word") ;;
    *' --lines,'*) files=1 ;;
    *,-*) mapfile -t COMPREPLY < <(compgen -W "$options" -- "$word") ;;
    solve,* | verify,* | tree,* | sheet,* | import,* | serve,* | replay,*) files=1 ;;
    perft,*)
        [[ ${COMP_WORDS[2]} != --divide ]] || depth=4
        ((COMP_CWORD != depth)) || mapfile -t COMPREPLY < <(compgen -W "$(echo {0..6})" -- "$word")
        ;;
    explain,*)
        mapfile -t COMPREPLY < <(compgen -W "$("${COMP_WORDS[0]}" explain 2>/dev/null | cut -d : -f 1)" -- "$word")
        ;;
    esac
    if [[ $files ]]; then
        mapfile -t COMPREPLY < <(compgen -f -- "$word")
        compopt -o filenames 2>/dev/null
    fi
}

complete -F _matedesk matedesk
