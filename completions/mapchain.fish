# Completion of mapchain for fish; made by scripts/manual.py. A shell reads it from share/fish/vendor_completions.d.

# Layers of the files here: each under its name without the ending.
function __mapchain_layers
    for file in *.json *.geojson
        echo (string replace -r '\.[^.]*$' '' -- $file)=$file
    end
end

# The objects of the topologies among all words, as `stat` names them, but for names that JSON escapes.
function __mapchain_objects
    set -l words (commandline -op)
    for file in $words[2..]
        if test -f $file
            $words[1] stat -- $file 2>/dev/null | string replace -rf '^"([^\\\\]*)" \d+$' '$1'
        end
    end
end

complete -c mapchain -n __fish_use_subcommand -f
complete -c mapchain -s h -l help -d 'Print help'
complete -c mapchain -n __fish_use_subcommand -s V -l version -d 'Print the version'
complete -c mapchain -n __fish_use_subcommand -l explain -d 'Explain in words what is wrong, or what was left out'
complete -c mapchain -n __fish_use_subcommand -a build -d 'Build a topology from GeoJSON files'
complete -c mapchain -n __fish_use_subcommand -a simplify -d 'Remove points from the lines of a topology'
complete -c mapchain -n __fish_use_subcommand -a geo -d 'Decode an object of a topology to GeoJSON'
complete -c mapchain -n __fish_use_subcommand -a stat -d 'Count what is in a topology'
complete -c mapchain -n __fish_use_subcommand -a help -d 'Print the help of a command'
complete -c mapchain -n '__fish_seen_subcommand_from help' -f -a 'build simplify geo stat'
complete -c mapchain -n '__fish_seen_subcommand_from build' -l grid -x -d 'Snap positions to a grid with N cells along each axis'
complete -c mapchain -n '__fish_seen_subcommand_from build' -l min-area -x -d 'Remove points whose triangle has less than the area A'
complete -c mapchain -n '__fish_seen_subcommand_from build' -l keep -x -d 'Remove points, but keep at least the share P/Q of them'
complete -c mapchain -n '__fish_seen_subcommand_from build' -l min-ring-area -x -d 'Leave out rings that enclose less than the area B'
complete -c mapchain -n '__fish_seen_subcommand_from build' -l no-crossings -d 'Remove no point where lines would then cross'
complete -c mapchain -n '__fish_seen_subcommand_from build' -l keep-shapes -d 'Keep the largest outer ring of each feature'
complete -c mapchain -n '__fish_seen_subcommand_from build' -l exact -d 'Refuse coordinates that would have to be rounded'
complete -c mapchain -n '__fish_seen_subcommand_from build' -s o -l output -r -F -d 'Write the output to a file in place of standard output'
complete -c mapchain -n '__fish_seen_subcommand_from build' -l report -r -F -d 'Write a report of the run to a file, as a JSON object'
complete -c mapchain -n '__fish_seen_subcommand_from build' -l explain -d 'Explain in words what is wrong, or what was left out'
complete -c mapchain -n '__fish_seen_subcommand_from build' -s q -l quiet -d 'Leave out the report, where all is done'
complete -c mapchain -n '__fish_seen_subcommand_from build' -a '(__mapchain_layers)' -d Layer
complete -c mapchain -n '__fish_seen_subcommand_from simplify' -l min-area -x -d 'Remove points whose triangle has less than the area A'
complete -c mapchain -n '__fish_seen_subcommand_from simplify' -l keep -x -d 'Remove points, but keep at least the share P/Q of them'
complete -c mapchain -n '__fish_seen_subcommand_from simplify' -l min-ring-area -x -d 'Leave out rings that enclose less than the area B'
complete -c mapchain -n '__fish_seen_subcommand_from simplify' -l no-crossings -d 'Remove no point where lines would then cross'
complete -c mapchain -n '__fish_seen_subcommand_from simplify' -l keep-shapes -d 'Keep the largest outer ring of each feature'
complete -c mapchain -n '__fish_seen_subcommand_from simplify' -s o -l output -r -F -d 'Write the output to a file in place of standard output'
complete -c mapchain -n '__fish_seen_subcommand_from simplify' -l report -r -F -d 'Write a report of the run to a file, as a JSON object'
complete -c mapchain -n '__fish_seen_subcommand_from simplify' -l explain -d 'Explain in words what is wrong, or what was left out'
complete -c mapchain -n '__fish_seen_subcommand_from simplify' -s q -l quiet -d 'Leave out the report, where all is done'
complete -c mapchain -n '__fish_seen_subcommand_from geo' -l object -x -a '(__mapchain_objects)' -d 'The name of the object'
complete -c mapchain -n '__fish_seen_subcommand_from geo' -l max-positions -x -d 'Refuse an object whose features have more than N positions'
complete -c mapchain -n '__fish_seen_subcommand_from geo' -s o -l output -r -F -d 'Write the output to a file in place of standard output'
complete -c mapchain -n '__fish_seen_subcommand_from geo' -l report -r -F -d 'Write a report of the run to a file, as a JSON object'
complete -c mapchain -n '__fish_seen_subcommand_from geo' -l explain -d 'Explain in words what is wrong, or what was left out'
complete -c mapchain -n '__fish_seen_subcommand_from stat' -l crossings -d 'Count the pairs of segments of arcs that cross'
complete -c mapchain -n '__fish_seen_subcommand_from stat' -s o -l output -r -F -d 'Write the output to a file in place of standard output'
complete -c mapchain -n '__fish_seen_subcommand_from stat' -l report -r -F -d 'Write a report of the run to a file, as a JSON object'
complete -c mapchain -n '__fish_seen_subcommand_from stat' -l explain -d 'Explain in words what is wrong, or what was left out'
