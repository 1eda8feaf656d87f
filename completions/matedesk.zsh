#compdef matedesk
# Completions of matedesk for zsh: commands, options, the values of --bound, --moves, --workers and DEPTH, codes, and files. A FEN has none.

_matedesk() {
    local curcontext=$curcontext state line
    local -a commands help
    typeset -A opt_args
    commands=(
        'solve:solve the problems of files'
        'verify:hold the problems of files against their claims'
        'tree:tell how the problems of files are solved'
        'sheet:make a page of diagrams of the problems of files'
        'import:make records of the problems of collections'
        'serve:solve the problems of files on threads'
        'replay:run a script of steps at a desk'
        'uci:answer a chess program as an engine'
        'look:show a FEN in canonical form'
        'play:make moves from a FEN'
        'moves:list the legal moves of a FEN'
        'perft:count the lines of legal moves from a FEN'
        'explain:say what a fault means'
    )
    help=('(- *)'{-h,--help}'[print help]')

    _arguments -C $help '(- *)'{-V,--version}'[print version]' '1: :->command' '*:: :->words'
    case $state in
    command) _describe command commands ;;
    words)
        case $words[1] in
        solve)
            _arguments $help \
                '--bound=[moves within which a record without dm asks for mate]:bound:(1 2 3 4 5 6 7 8 9 10 11 12 13 14 15)' \
                '--memo=[positions that are remembered]:positions: ' \
                '--memory[memory for all that is remembered]:size: ' \
                '--limit=[seconds that a record may take]:seconds: ' \
                '--workers=[threads that solve each record]:threads:(1 2 3 4 5 6 7 8 9 10 11 12 13 14 15 16)' \
                '--json[print JSON]' \
                '--from=[line of the first file to begin with]:line: ' \
                '--progress[tell how far it is]' \
                '--record[records themselves in place of files]' \
                '--fen[FENs in place of files]' \
                '*:file of records:_files'
            ;;
        verify)
            _arguments $help \
                '--bound=[moves within which a record without dm asks for mate]:bound:(1 2 3 4 5 6 7 8 9 10 11 12 13 14 15)' \
                '--memo=[positions that are remembered]:positions: ' \
                '--memory[memory for all that is remembered]:size: ' \
                '--import[take problems as import does]' \
                '--letters=[letters of men in moves]:letters:(cs da de en es et fi fr hu is it nl no pl pt ro ru sv)' \
                '--fen-letters=[letters of men in FENs]:letters:(cs da de en es et fi fr hu is it nl no pl pt ro ru sv)' \
                '--limit=[seconds that a record may take]:seconds: ' \
                '--workers=[threads that take records side by side]:threads:(1 2 3 4 5 6 7 8 9 10 11 12 13 14 15 16)' \
                '--header[print a first row of names]' \
                '--json[print JSON]' \
                '--from=[line of the first file to begin with]:line: ' \
                '--progress[tell how far it is]' \
                '--record[records themselves in place of files]' \
                '--fen[FENs in place of files]' \
                '*:file of records:_files'
            ;;
        tree)
            _arguments $help \
                '--bound=[moves within which a record without dm asks for mate]:bound:(1 2 3 4 5 6 7 8 9 10 11 12 13 14 15)' \
                '--moves=[moves of the attacker that are shown]:moves:(1 2 3 4 5 6 7 8 9 10 11 12 13 14 15)' \
                '--defences[show only the defences that parry the threat]' \
                '--set-play[show what would follow were the defender to move first]' \
                '--tries[show the first moves that one reply alone refutes]' \
                '--column[print each tree on one line]' \
                '--figurines[show pieces as figurines]' \
                '--letters=[letters of men]:letters:(cs da de en es et fi fr hu is it nl no pl pt ro ru sv)' \
                '--lines=[lines that a tree has at most]:lines: ' \
                '--limit=[seconds that a record may take]:seconds: ' \
                '--workers=[threads that take records side by side]:threads:(1 2 3 4 5 6 7 8 9 10 11 12 13 14 15 16)' \
                '--json[print JSON]' \
                '--from=[line of the first file to begin with]:line: ' \
                '--progress[tell how far it is]' \
                '--record[records themselves in place of files]' \
                '--fen[FENs in place of files]' \
                '*:file of records:_files'
            ;;
        sheet)
            _arguments $help \
                '--solutions[solve the problems]' \
                '--figurines[show pieces as figurines in solutions]' \
                '--letters=[letters of men in solutions]:letters:(cs da de en es et fi fr hu is it nl no pl pt ro ru sv)' \
                '--title[what the page is called]:title: ' \
                '--bound=[moves within which a record without dm asks for mate]:bound:(1 2 3 4 5 6 7 8 9 10 11 12 13 14 15)' \
                '--memo=[positions that are remembered]:positions: ' \
                '--memory[memory for all that is remembered]:size: ' \
                '*:file of records:_files'
            ;;
        import)
            _arguments $help \
                '--keep[tell in c9 what was changed]' \
                '--bound=[moves within which a problem that says no number asks for mate]:bound:(1 2 3 4 5 6 7 8 9 10 11 12 13 14 15)' \
                '--letters=[letters of men in moves]:letters:(cs da de en es et fi fr hu is it nl no pl pt ro ru sv)' \
                '--fen-letters=[letters of men in FENs]:letters:(cs da de en es et fi fr hu is it nl no pl pt ro ru sv)' \
                '*:collection:_files'
            ;;
        serve)
            _arguments $help \
                '--workers=[threads that solve]:workers:(1 2 3 4 5 6 7 8 9 10 11 12 13 14 15 16)' \
                '--bound=[moves within which a record without dm asks for mate]:bound:(1 2 3 4 5 6 7 8 9 10 11 12 13 14 15)' \
                '--memo=[positions that each worker remembers]:positions: ' \
                '--memory[memory for all that is remembered]:size: ' \
                '--progress[tell how far it is]' \
                '*:file of records:_files'
            ;;
        replay) _arguments $help '1:script:_files' ;;
        uci) _arguments $help ;;
        look) _arguments $help '--board[draw the board too]' '--flip[draw it as Black sees it]' '--svg[draw it as an image]' '--lines[read files of positions]' '*:FEN or file:_files' ;;
        play) _arguments $help '1:FEN: ' '*:move: ' ;;
        moves) _arguments $help '--coordinates[write moves by their coordinates]' '--fen[write the FEN after each move]' '--json[print JSON]' '--lines[read files of positions]' '*:FEN or file:_files' ;;
        perft) _arguments $help '--divide[count the lines behind each first move too]' '--lines[read files of positions]' '1:FEN or depth: ' '2:depth:(0 1 2 3 4 5 6)' '*:file:_files' ;;
        explain) _arguments $help '*:code:{compadd -- ${(f)"$(matedesk explain 2>/dev/null | cut -d : -f 1)"}}' ;;
        esac
        ;;
    esac
}

_matedesk "$@"
