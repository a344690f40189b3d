# Completions of mkbtt for fish.
complete -c mkbtt -f
set -l modes complete rounds check convert reduce decide simplify summary journal replay gen
complete -c mkbtt -n "not __fish_seen_subcommand_from $modes" -a complete -d 'reads a problem and writes an answer'
complete -c mkbtt -n "not __fish_seen_subcommand_from $modes" -a rounds -d 'as complete, and writes the same for every number of workers'
complete -c mkbtt -n "not __fish_seen_subcommand_from $modes" -a check -d 'reads an answer and checks it'
complete -c mkbtt -n "not __fish_seen_subcommand_from $modes" -a convert -d 'reads an answer and writes it in the newest version of its text'
complete -c mkbtt -n "not __fish_seen_subcommand_from $modes" -a reduce -d 'reads an answer and writes it with reduced rules'
complete -c mkbtt -n "not __fish_seen_subcommand_from $modes" -a decide -d 'reads an answer with goals behind it and decides them by its rules'
complete -c mkbtt -n "not __fish_seen_subcommand_from $modes" -a simplify -d 'reads an answer with terms behind it and writes their normal forms'
complete -c mkbtt -n "not __fish_seen_subcommand_from $modes" -a summary -d 'runs on a generated problem and writes a summary of the run'
complete -c mkbtt -n "not __fish_seen_subcommand_from $modes" -a journal -d 'reads a problem and writes the journal of its run'
complete -c mkbtt -n "not __fish_seen_subcommand_from $modes" -a replay -d 'reads a journal and writes a summary of its board'
complete -c mkbtt -n "not __fish_seen_subcommand_from $modes" -a gen -d 'writes a generated problem'
complete -c mkbtt -l workers -x -d 'how many workers, 1 to 16' -a "(seq 1 16)"
complete -c mkbtt -l budget -x -d 'the most commits of a run, 1 to 100000' -a "1000 20000 100000"
complete -c mkbtt -l number -x -d 'which generated problem, 1 to 64' -a "(seq 1 64)"
complete -c mkbtt -l to -x -d 'as what convert writes, answer, trs or dot' -a "answer trs dot"
complete -c mkbtt -l select -x -d 'which job comes first, stated or size' -a "stated size"
complete -c mkbtt -l progress -d 'shows each second how a run goes on'
complete -c mkbtt -l explain -d 'shows the line of what is refused'
complete -c mkbtt -l quiet -d 'shows neither'
complete -c mkbtt -l help -s h -d 'a page of help'
complete -c mkbtt -l version -s V -d 'what the program is proved with'
