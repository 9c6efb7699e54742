# Completions of fish for csplay and for ./play, as csplay.fish in a folder of $fish_complete_path.
for it in csplay play csplay-play
    complete -c $it -f -a '(__fish_complete_suffix .orc; __fish_complete_suffix .sco; __fish_complete_suffix .csd)'
    complete -c $it -s j -x -a '1 2 4 8 16 32' -d 'number of workers'
    complete -c $it -s o -r -F -d 'name of the sound file'
    complete -c $it -s n -d 'write no sound file'
    complete -c $it -s 3 -d 'samples of 24 bits'
    complete -c $it -s W
    complete -c $it -s s
    complete -c $it -s d
    complete -c $it -l turns -d 'print the turns of each cycle'
    complete -c $it -l pool
    complete -c $it -l demo -x -a '1 100 1000 10000' -d 'play the demo of N notes'
end
for it in play csplay-play
    complete -c $it -l listen -d 'play the sound file after a successful run'
    complete -c $it -l picture -d 'draw the sound file as a PNG file beside it'
    complete -c $it -l check -d 'make all checks, and perform and write nothing'
    complete -c $it -l format -x -a gcc -d 'with --check, print a refusal as FILE:LINE: error: ..'
    complete -c $it -l prove -d 'prove all sources first'
    complete -c $it -l help -d 'print the options'
    complete -c $it -l version -d 'print the version and how csplay was built'
    complete -c $it -l manual -x -d 'show a page of the manual'
    complete -c $it -l install -r -d 'copy program, manual and examples into a folder'
end
