# Completes the words of pns in fish. Written by tools/help write.
function __pns_units
    set -l words (commandline -opc)
    awk -F: '/^[ \t]*#/ { next } /^[ \t]*[a-z_]+[ \t]*:[ \t\r]*$/ { part = $1; gsub(/[ \t]/, "", part); next } part ~ /^(operating_units|material_to_operating_unit_flow_rates)$/ { gsub(/[ \t\r]/, "", $1); if ($1 != "" && !seen[$1]++) print $1 }' $words[3] 2> /dev/null
end
complete -c pns -f
complete -c pns -n '__fish_use_subcommand' -a max -d 'Finds the maximal structure'
complete -c pns -n '__fish_use_subcommand' -a axioms -d 'Checks whether some units meet the axioms S1 to S5'
complete -c pns -n '__fish_use_subcommand' -a list -d 'Lists the sets of units that meet the axioms and the exclusions, in a fixed order'
complete -c pns -n '__fish_use_subcommand' -a lint -d 'Warns of what looks odd in a plant and may be a slip'
complete -c pns -n '__fish_use_subcommand' -a flows -d 'Finds the least cost of one choice of units and the sizes that have it'
complete -c pns -n '__fish_use_subcommand' -a solve -d 'Finds a network of least cost in one year and a tree that proves it'
complete -c pns -n '__fish_use_subcommand' -a show -d 'Finds a network of least cost in one year and shows it to people'
complete -c pns -n '__fish_use_subcommand' -a check -d 'Checks whether a tree proves its claim'
complete -c pns -n '__fish_use_subcommand' -a table -d 'Prints the network of the claim as CSV for a spreadsheet'
complete -c pns -n '__fish_use_subcommand' -a report -d 'Says what the tree proves, and shows the network of its claim to people'
complete -c pns -n '__fish_use_subcommand' -a json -d 'Says what pns report says, as one JSON object for programs'
complete -c pns -n '__fish_use_subcommand' -a graph -d 'Prints the maximal structure as a graph for Graphviz, with TREE also the network of its claim'
complete -c pns -n '__fish_use_subcommand' -a stable -d 'Finds how far one price or cost may move while the network of the claim still costs least'
complete -c pns -n '__fish_use_subcommand' -a edit -d 'Applies a script of edits to a plant'
complete -c pns -n '__fish_use_subcommand' -a undo -d 'Writes the script that leads from the edited plant back to FILE'
complete -c pns -n '__fish_use_subcommand' -a migrate -d 'Writes the script that turns the yearly costs of the units into investments over a payout period'
complete -c pns -n '__fish_use_subcommand' -a expand -d 'Writes the plant of a plan of several periods as one ordinary plant, which solve and check read'
complete -c pns -n '__fish_use_subcommand' -a periods -d 'Finds the units to build once and to run in several periods, at least cost'
complete -c pns -n '__fish_use_subcommand' -a make -d 'Makes a plant out of a number, to try the program with'
complete -c pns -n '__fish_use_subcommand' -a trial -d 'Makes the plant of pns make NUMBER UNITS, solves it and sums up'
complete -c pns -n '__fish_use_subcommand' -a rank -d 'Finds the N best networks, each the cheapest with its units, and a tree that proves it'
complete -c pns -n '__fish_use_subcommand' -a alternatives -d 'Finds the N best networks that really differ, each the cheapest with its units, and a tree that proves it'
complete -c pns -n '__fish_use_subcommand' -a rankcheck -d 'Checks whether a rank text proves its ranking, or its list of alternatives'
complete -c pns -n '__fish_use_subcommand' -a split -d 'Lists the open leaves of a tree that solve left with status 4 or 5'
complete -c pns -n '__fish_use_subcommand' -a part -d 'Searches one open leaf of a tree'
complete -c pns -n '__fish_use_subcommand' -a merge -d 'Puts searched parts back into their tree, in any order'
complete -c pns -n '__fish_use_subcommand' -a help -d 'Lists the commands, or explains one topic'
complete -c pns -n '__fish_use_subcommand' -a version -d 'Shows which program this is'
complete -c pns -n '__fish_seen_subcommand_from help' -a 'max axioms list lint flows solve show check table report json graph stable edit undo migrate expand periods make trial rank alternatives rankcheck split part merge help version status plant FileType UnknownSection DoubleSection BadLine BadName UnknownKey DoubleKey BadNumber TooFine TooLarge Negative UnknownKind ZeroRate DoubleTerm BothSides EmptySide DoubleMaterial DoubleUnit DoubleRates TooMany LowAboveHigh UnknownMaterial NoRates NoProduct DoubleExclusion DoubleMember FewMembers UnknownUnit BadPayout UnknownName Order WrongCount MoreNodes FewerNodes AfterEnd Sign DoubleLine NoPeriod TooWide BadTerms DoubleName BadPlace InUse BadMembers'
complete -c pns -n 'not __fish_use_subcommand' -l help -d 'Prints the page of the command'
complete -c pns -n '__fish_seen_subcommand_from max; and test (count (commandline -opc)) -eq 2' -k -a '(__fish_complete_suffix .pns)'
complete -c pns -n '__fish_seen_subcommand_from axioms; and test (count (commandline -opc)) -eq 2' -k -a '(__fish_complete_suffix .pns)'
complete -c pns -n '__fish_seen_subcommand_from axioms; and test (count (commandline -opc)) -eq 3' -k -a '(__fish_complete_list , __pns_units)'
complete -c pns -n '__fish_seen_subcommand_from list; and test (count (commandline -opc)) -eq 2' -k -a '(__fish_complete_suffix .pns)'
complete -c pns -n '__fish_seen_subcommand_from list; and test (count (commandline -opc)) -eq 3' -k -a 'start'
complete -c pns -n '__fish_seen_subcommand_from lint; and test (count (commandline -opc)) -eq 2' -k -a '(__fish_complete_suffix .pns)'
complete -c pns -n '__fish_seen_subcommand_from flows; and test (count (commandline -opc)) -eq 2' -k -a '(__fish_complete_suffix .pns)'
complete -c pns -n '__fish_seen_subcommand_from flows; and test (count (commandline -opc)) -eq 3' -k -a '(__fish_complete_list , __pns_units)'
complete -c pns -n '__fish_seen_subcommand_from solve; and test (count (commandline -opc)) -eq 2' -k -a '(__fish_complete_suffix .pns)'
complete -c pns -n '__fish_seen_subcommand_from solve; and test (count (commandline -opc)) -eq 3' -k -a '10k 100k 1M'
complete -c pns -n '__fish_seen_subcommand_from show; and test (count (commandline -opc)) -eq 2' -k -a '(__fish_complete_suffix .pns)'
complete -c pns -n '__fish_seen_subcommand_from show; and test (count (commandline -opc)) -eq 3' -k -a '10k 100k 1M'
complete -c pns -n '__fish_seen_subcommand_from check; and test (count (commandline -opc)) -eq 2' -k -a '(__fish_complete_suffix .pns)'
complete -c pns -n '__fish_seen_subcommand_from check; and test (count (commandline -opc)) -eq 3' -F
complete -c pns -n '__fish_seen_subcommand_from table; and test (count (commandline -opc)) -eq 2' -k -a '(__fish_complete_suffix .pns)'
complete -c pns -n '__fish_seen_subcommand_from table; and test (count (commandline -opc)) -eq 3' -F
complete -c pns -n '__fish_seen_subcommand_from report; and test (count (commandline -opc)) -eq 2' -k -a '(__fish_complete_suffix .pns)'
complete -c pns -n '__fish_seen_subcommand_from report; and test (count (commandline -opc)) -eq 3' -F
complete -c pns -n '__fish_seen_subcommand_from json; and test (count (commandline -opc)) -eq 2' -k -a '(__fish_complete_suffix .pns)'
complete -c pns -n '__fish_seen_subcommand_from json; and test (count (commandline -opc)) -eq 3' -F
complete -c pns -n '__fish_seen_subcommand_from graph; and test (count (commandline -opc)) -eq 2' -k -a '(__fish_complete_suffix .pns)'
complete -c pns -n '__fish_seen_subcommand_from graph; and test (count (commandline -opc)) -eq 3' -F
complete -c pns -n '__fish_seen_subcommand_from graph; and test (count (commandline -opc)) -eq 4' -k -a 'network'
complete -c pns -n '__fish_seen_subcommand_from stable; and test (count (commandline -opc)) -eq 2' -k -a '(__fish_complete_suffix .pns)'
complete -c pns -n '__fish_seen_subcommand_from stable; and test (count (commandline -opc)) -eq 3' -F
complete -c pns -n '__fish_seen_subcommand_from stable; and test (count (commandline -opc)) -eq 4' -k -a 'price fix proportional'
complete -c pns -n '__fish_seen_subcommand_from stable; and test (count (commandline -opc)) -eq 6' -k -a '10k 100k 1M'
complete -c pns -n '__fish_seen_subcommand_from edit; and test (count (commandline -opc)) -eq 2' -k -a '(__fish_complete_suffix .pns)'
complete -c pns -n '__fish_seen_subcommand_from edit; and test (count (commandline -opc)) -eq 3' -F
complete -c pns -n '__fish_seen_subcommand_from undo; and test (count (commandline -opc)) -eq 2' -k -a '(__fish_complete_suffix .pns)'
complete -c pns -n '__fish_seen_subcommand_from undo; and test (count (commandline -opc)) -eq 3' -F
complete -c pns -n '__fish_seen_subcommand_from migrate; and test (count (commandline -opc)) -eq 2' -k -a '(__fish_complete_suffix .pns)'
complete -c pns -n '__fish_seen_subcommand_from expand; and test (count (commandline -opc)) -eq 2' -k -a '(__fish_complete_suffix .pns)'
complete -c pns -n '__fish_seen_subcommand_from expand; and test (count (commandline -opc)) -eq 3' -F
complete -c pns -n '__fish_seen_subcommand_from periods; and test (count (commandline -opc)) -eq 2' -k -a '(__fish_complete_suffix .pns)'
complete -c pns -n '__fish_seen_subcommand_from periods; and test (count (commandline -opc)) -eq 3' -F
complete -c pns -n '__fish_seen_subcommand_from periods; and test (count (commandline -opc)) -eq 4' -k -a '10k 100k 1M'
complete -c pns -n '__fish_seen_subcommand_from trial; and test (count (commandline -opc)) -eq 4' -k -a '10k 100k 1M'
complete -c pns -n '__fish_seen_subcommand_from rank; and test (count (commandline -opc)) -eq 2' -k -a '(__fish_complete_suffix .pns)'
complete -c pns -n '__fish_seen_subcommand_from rank; and test (count (commandline -opc)) -eq 4' -k -a '10k 100k 1M'
complete -c pns -n '__fish_seen_subcommand_from alternatives; and test (count (commandline -opc)) -eq 2' -k -a '(__fish_complete_suffix .pns)'
complete -c pns -n '__fish_seen_subcommand_from alternatives; and test (count (commandline -opc)) -eq 4' -k -a '10k 100k 1M'
complete -c pns -n '__fish_seen_subcommand_from rankcheck; and test (count (commandline -opc)) -eq 2' -k -a '(__fish_complete_suffix .pns)'
complete -c pns -n '__fish_seen_subcommand_from rankcheck; and test (count (commandline -opc)) -eq 3' -F
complete -c pns -n '__fish_seen_subcommand_from split; and test (count (commandline -opc)) -eq 2' -k -a '(__fish_complete_suffix .pns)'
complete -c pns -n '__fish_seen_subcommand_from split; and test (count (commandline -opc)) -eq 3' -F
complete -c pns -n '__fish_seen_subcommand_from part; and test (count (commandline -opc)) -eq 2' -k -a '(__fish_complete_suffix .pns)'
complete -c pns -n '__fish_seen_subcommand_from part; and test (count (commandline -opc)) -eq 5' -k -a '10k 100k 1M'
complete -c pns -n '__fish_seen_subcommand_from part; and test (count (commandline -opc)) -eq 6' -F
complete -c pns -n '__fish_seen_subcommand_from merge; and test (count (commandline -opc)) -eq 2' -k -a '(__fish_complete_suffix .pns)'
complete -c pns -n '__fish_seen_subcommand_from merge; and test (count (commandline -opc)) -eq 3' -F
complete -c pns -n '__fish_seen_subcommand_from merge; and test (count (commandline -opc)) -eq 4' -F
complete -c pns -n '__fish_seen_subcommand_from merge; and test (count (commandline -opc)) -eq 5' -F
complete -c pns -n '__fish_seen_subcommand_from merge; and test (count (commandline -opc)) -eq 6' -F
complete -c pns -n '__fish_seen_subcommand_from merge; and test (count (commandline -opc)) -eq 7' -F
complete -c pns -n '__fish_seen_subcommand_from merge; and test (count (commandline -opc)) -eq 8' -F
