# Completion of coap for fish, made by tools/words from the tables of the program; change those.

# Whether the subcommand is one of these.
function __coap_is
    set -l words (commandline -opc)
    contains -- "$words[2]" $argv
end

# Whether there is no subcommand yet.
function __coap_begins
    test (count (commandline -opc)) -eq 1
end

complete -c coap -f
complete -c coap -n __coap_begins -s h -l help -d 'print help'

# show
complete -c coap -n __coap_begins -a show -d 'Prints the message in a datagram, or its first fault'
complete -c coap -n '__coap_is show' -s h -l help -d 'print help'

# dump
complete -c coap -n __coap_begins -a dump -d 'Prints the messages in the datagrams that standard input has in hex, one a line, behind the line\'s number, or those of a capture'
complete -c coap -n '__coap_is dump' -s h -l help -d 'print help'
complete -c coap -n '__coap_is dump' -l pcap -r -F -d 'reads the datagrams of UDP in this file, a capture of pcap, in place of standard input'
complete -c coap -n '__coap_is dump' -l chart -d 'with --pcap, draws the datagrams for reading, in place of lines'

# answer
complete -c coap -n __coap_begins -a answer -d 'Prints what a server that holds BODY at PATH replies to a datagram'
complete -c coap -n '__coap_is answer' -s h -l help -d 'print help'

# pair
complete -c coap -n __coap_begins -a pair -d 'Puts BODY at PATH and gets it back, between a client and a server of this program over UDP'
complete -c coap -n '__coap_is pair' -s h -l help -d 'print help'
complete -c coap -n '__coap_is pair' -l word -x -a 'random' -d 'the word that each end begins with, 1 where it is left out'
complete -c coap -n '__coap_is pair' -l limit -x -d 'the longest body in bytes, from 1 to 1048576, 65536 where it is left out'
complete -c coap -n '__coap_is pair' -l remember -x -d 'how many messages an end remembers to tell duplicates, from 1 to 1048576, 4096 where it is left out'

# serve
complete -c coap -n __coap_begins -a serve -d 'Serves the resource temperature, and what --hold names, until COUNT datagrams came'
complete -c coap -n '__coap_is serve' -s h -l help -d 'print help'
complete -c coap -n '__coap_is serve' -l address -x -d 'the address of this machine that is served at'
complete -c coap -n '__coap_is serve' -l hold -x -d 'the server holds BODY at PATH'
complete -c coap -n '__coap_is serve' -l delay -x -d 'a request of PATH waits for so many milliseconds, and so for each other path that is given'
complete -c coap -n '__coap_is serve' -l plain -x -d 'tells observers of PATH in Non-confirmable messages where it may, and so of each other path that is given'
complete -c coap -n '__coap_is serve' -s v -l trace -d 'tells on standard error of each datagram as it goes and comes'
complete -c coap -n '__coap_is serve' -l changes -d 'tells on standard error of each request that is applied'
complete -c coap -n '__coap_is serve' -l json -d 'with --changes, tells of each as an object of JSON, one a line'
complete -c coap -n '__coap_is serve' -l script -r -F -d 'sets the server up by the lines of this file'
complete -c coap -n '__coap_is serve' -l pcap -r -F -d 'writes each datagram that goes and comes to this file, which tshark and coap dump --pcap read'
complete -c coap -n '__coap_is serve' -l journal -r -F -d 'keeps in this file what the server takes, before it answers, and goes on from there'
complete -c coap -n '__coap_is serve' -l renew -d 'with --journal, is silent for 400 seconds, and begins the file anew then, with what the paths hold'
complete -c coap -n '__coap_is serve' -l word -x -a 'random' -d 'the word that the server begins with'
complete -c coap -n '__coap_is serve' -l limit -x -d 'the longest body in bytes, from 1 to 1048576, 65536 where it is left out'
complete -c coap -n '__coap_is serve' -l remember -x -d 'how many messages an end remembers to tell duplicates, from 1 to 1048576, 4096 where it is left out'

# sim
complete -c coap -n __coap_begins -a sim -d 'Runs a script over a client and a server, and prints what comes of it'
complete -c coap -n '__coap_is sim' -s h -l help -d 'print help'
complete -c coap -n '__coap_is sim' -l store -x -a 'list map' -d 'what the server keeps its resources in, a list or a map'
complete -c coap -n '__coap_is sim' -l plain -x -d 'tells observers of PATH in Non-confirmable messages where it may, and so of each other path that is given'
complete -c coap -n '__coap_is sim' -l remember -x -d 'how many messages an end remembers to tell duplicates, from 1 to 1048576, 4096 where it is left out'
complete -c coap -n '__coap_is sim' -l chart -d 'draws the run for reading, in place of its lines'
complete -c coap -n '__coap_is sim' -l client -x -d 'where the client of the script stands, 127.0.0.1:40001 where it is left out'
complete -c coap -n '__coap_is sim' -l server -x -d 'where the server of the script stands, 127.0.0.1:5683 where it is left out'
complete -c coap -n '__coap_is sim' -l pcap -r -F -d 'writes each datagram that goes and comes to this file, which tshark and coap dump --pcap read'
complete -c coap -n '__coap_is sim' -F

# get
complete -c coap -n __coap_begins -a get -d 'Prints what a server holds at PATH'
complete -c coap -n '__coap_is get' -s h -l help -d 'print help'
complete -c coap -n '__coap_is get' -l accept -x -a 'text/plain application/link-format application/xml application/octet-stream application/json application/cbor' -d 'the format that is wanted'
complete -c coap -n '__coap_is get' -l etag -x -d 'the entity-tag of a body that is there already, which is not sent again'
complete -c coap -n '__coap_is get' -l every -x -d 'reads again after so many seconds, at least 1, and so on and on, a line each'
complete -c coap -n '__coap_is get' -l count -x -d 'with --every, ends after this many readings'
complete -c coap -n '__coap_is get' -l host -x -d 'the server\'s address'
complete -c coap -n '__coap_is get' -l size -x -a '16 32 64 128 256 512 1024' -d 'how many bytes a block has at most that the client sends, or asks for behind the first'
complete -c coap -n '__coap_is get' -s v -l trace -d 'tells on standard error of each datagram as it goes and comes'
complete -c coap -n '__coap_is get' -l json -d 'prints each report as an object of JSON, one a line'
complete -c coap -n '__coap_is get' -l pcap -r -F -d 'writes each datagram that goes and comes to this file, which tshark and coap dump --pcap read'
complete -c coap -n '__coap_is get' -l give-up -x -d 'gives up after so many seconds'
complete -c coap -n '__coap_is get' -l word -x -a 'random' -d 'the word that the client begins with, a random one where it is left out'
complete -c coap -n '__coap_is get' -l limit -x -d 'the longest body in bytes, from 1 to 1048576, 65536 where it is left out'
complete -c coap -n '__coap_is get' -l remember -x -d 'how many messages an end remembers to tell duplicates, from 1 to 1048576, 4096 where it is left out'

# put
complete -c coap -n __coap_begins -a put -d 'Puts BODY at PATH at a server, and prints what came of it'
complete -c coap -n '__coap_is put' -s h -l help -d 'print help'
complete -c coap -n '__coap_is put' -l file -r -F -d 'the body is what is in this file, in place of BODY'
complete -c coap -n '__coap_is put' -l format -x -a 'text/plain application/link-format application/xml application/octet-stream application/json application/cbor' -d 'the format of the body'
complete -c coap -n '__coap_is put' -l if-match -x -d 'only where PATH holds what this entity-tag names, or another one that is given so'
complete -c coap -n '__coap_is put' -l if-none-match -d 'only where PATH holds nothing'
complete -c coap -n '__coap_is put' -l host -x -d 'the server\'s address'
complete -c coap -n '__coap_is put' -l size -x -a '16 32 64 128 256 512 1024' -d 'how many bytes a block has at most that the client sends, or asks for behind the first'
complete -c coap -n '__coap_is put' -s v -l trace -d 'tells on standard error of each datagram as it goes and comes'
complete -c coap -n '__coap_is put' -l json -d 'prints each report as an object of JSON, one a line'
complete -c coap -n '__coap_is put' -l pcap -r -F -d 'writes each datagram that goes and comes to this file, which tshark and coap dump --pcap read'
complete -c coap -n '__coap_is put' -l give-up -x -d 'gives up after so many seconds'
complete -c coap -n '__coap_is put' -l word -x -a 'random' -d 'the word that the client begins with, a random one where it is left out'
complete -c coap -n '__coap_is put' -l limit -x -d 'the longest body in bytes, from 1 to 1048576, 65536 where it is left out'
complete -c coap -n '__coap_is put' -l remember -x -d 'how many messages an end remembers to tell duplicates, from 1 to 1048576, 4096 where it is left out'

# post
complete -c coap -n __coap_begins -a post -d 'Has a server process BODY at PATH, and prints what came of it'
complete -c coap -n '__coap_is post' -s h -l help -d 'print help'
complete -c coap -n '__coap_is post' -l file -r -F -d 'the body is what is in this file, in place of BODY'
complete -c coap -n '__coap_is post' -l format -x -a 'text/plain application/link-format application/xml application/octet-stream application/json application/cbor' -d 'the format of the body'
complete -c coap -n '__coap_is post' -l if-match -x -d 'only where PATH holds what this entity-tag names, or another one that is given so'
complete -c coap -n '__coap_is post' -l if-none-match -d 'only where PATH holds nothing'
complete -c coap -n '__coap_is post' -l host -x -d 'the server\'s address'
complete -c coap -n '__coap_is post' -l size -x -a '16 32 64 128 256 512 1024' -d 'how many bytes a block has at most that the client sends, or asks for behind the first'
complete -c coap -n '__coap_is post' -s v -l trace -d 'tells on standard error of each datagram as it goes and comes'
complete -c coap -n '__coap_is post' -l json -d 'prints each report as an object of JSON, one a line'
complete -c coap -n '__coap_is post' -l pcap -r -F -d 'writes each datagram that goes and comes to this file, which tshark and coap dump --pcap read'
complete -c coap -n '__coap_is post' -l give-up -x -d 'gives up after so many seconds'
complete -c coap -n '__coap_is post' -l word -x -a 'random' -d 'the word that the client begins with, a random one where it is left out'
complete -c coap -n '__coap_is post' -l limit -x -d 'the longest body in bytes, from 1 to 1048576, 65536 where it is left out'
complete -c coap -n '__coap_is post' -l remember -x -d 'how many messages an end remembers to tell duplicates, from 1 to 1048576, 4096 where it is left out'

# delete
complete -c coap -n __coap_begins -a delete -d 'Deletes what a server holds at PATH, and prints what came of it'
complete -c coap -n '__coap_is delete' -s h -l help -d 'print help'
complete -c coap -n '__coap_is delete' -l if-match -x -d 'only where PATH holds what this entity-tag names, or another one that is given so'
complete -c coap -n '__coap_is delete' -l if-none-match -d 'only where PATH holds nothing'
complete -c coap -n '__coap_is delete' -l host -x -d 'the server\'s address'
complete -c coap -n '__coap_is delete' -l size -x -a '16 32 64 128 256 512 1024' -d 'how many bytes a block has at most that the client sends, or asks for behind the first'
complete -c coap -n '__coap_is delete' -s v -l trace -d 'tells on standard error of each datagram as it goes and comes'
complete -c coap -n '__coap_is delete' -l json -d 'prints each report as an object of JSON, one a line'
complete -c coap -n '__coap_is delete' -l pcap -r -F -d 'writes each datagram that goes and comes to this file, which tshark and coap dump --pcap read'
complete -c coap -n '__coap_is delete' -l give-up -x -d 'gives up after so many seconds'
complete -c coap -n '__coap_is delete' -l word -x -a 'random' -d 'the word that the client begins with, a random one where it is left out'
complete -c coap -n '__coap_is delete' -l limit -x -d 'the longest body in bytes, from 1 to 1048576, 65536 where it is left out'
complete -c coap -n '__coap_is delete' -l remember -x -d 'how many messages an end remembers to tell duplicates, from 1 to 1048576, 4096 where it is left out'

# observe
complete -c coap -n __coap_begins -a observe -d 'Prints what a server holds at PATH, each time that it changes'
complete -c coap -n '__coap_is observe' -s h -l help -d 'print help'
complete -c coap -n '__coap_is observe' -l count -x -d 'ends after this many values'
complete -c coap -n '__coap_is observe' -l seconds -x -d 'ends after so many seconds'
complete -c coap -n '__coap_is observe' -l again -x -d 'begins anew where no value came for so many seconds, at least 1, or the server ended it, and says so on standard error'
complete -c coap -n '__coap_is observe' -l hex -d 'prints values in hex'
complete -c coap -n '__coap_is observe' -l host -x -d 'the server\'s address'
complete -c coap -n '__coap_is observe' -l size -x -a '16 32 64 128 256 512 1024' -d 'how many bytes a block has at most that the client sends, or asks for behind the first'
complete -c coap -n '__coap_is observe' -s v -l trace -d 'tells on standard error of each datagram as it goes and comes'
complete -c coap -n '__coap_is observe' -l json -d 'prints each report as an object of JSON, one a line'
complete -c coap -n '__coap_is observe' -l pcap -r -F -d 'writes each datagram that goes and comes to this file, which tshark and coap dump --pcap read'
complete -c coap -n '__coap_is observe' -l give-up -x -d 'gives up where no first value came in so many seconds'
complete -c coap -n '__coap_is observe' -l word -x -a 'random' -d 'the word that the client begins with, a random one where it is left out'
complete -c coap -n '__coap_is observe' -l limit -x -d 'the longest body in bytes, from 1 to 1048576, 65536 where it is left out'
complete -c coap -n '__coap_is observe' -l remember -x -d 'how many messages an end remembers to tell duplicates, from 1 to 1048576, 4096 where it is left out'

# discover
complete -c coap -n __coap_begins -a discover -d 'Prints the links that a server has at /.well-known/core, one a line'
complete -c coap -n '__coap_is discover' -s h -l help -d 'print help'
complete -c coap -n '__coap_is discover' -l host -x -d 'the server\'s address'
complete -c coap -n '__coap_is discover' -l size -x -a '16 32 64 128 256 512 1024' -d 'how many bytes a block has at most that the client sends, or asks for behind the first'
complete -c coap -n '__coap_is discover' -s v -l trace -d 'tells on standard error of each datagram as it goes and comes'
complete -c coap -n '__coap_is discover' -l json -d 'prints each report as an object of JSON, one a line'
complete -c coap -n '__coap_is discover' -l pcap -r -F -d 'writes each datagram that goes and comes to this file, which tshark and coap dump --pcap read'
complete -c coap -n '__coap_is discover' -l give-up -x -d 'gives up after so many seconds'
complete -c coap -n '__coap_is discover' -l word -x -a 'random' -d 'the word that the client begins with, a random one where it is left out'
complete -c coap -n '__coap_is discover' -l limit -x -d 'the longest body in bytes, from 1 to 1048576, 65536 where it is left out'
complete -c coap -n '__coap_is discover' -l remember -x -d 'how many messages an end remembers to tell duplicates, from 1 to 1048576, 4096 where it is left out'

# ping
complete -c coap -n __coap_begins -a ping -d 'Asks a server whether it is there, and prints how long its answer took'
complete -c coap -n '__coap_is ping' -s h -l help -d 'print help'
complete -c coap -n '__coap_is ping' -l count -x -d 'asks so often, one after the other'
complete -c coap -n '__coap_is ping' -l host -x -d 'the server\'s address'
complete -c coap -n '__coap_is ping' -s v -l trace -d 'tells on standard error of each datagram as it goes and comes'
complete -c coap -n '__coap_is ping' -l json -d 'prints each report as an object of JSON, one a line'
complete -c coap -n '__coap_is ping' -l pcap -r -F -d 'writes each datagram that goes and comes to this file, which tshark and coap dump --pcap read'
complete -c coap -n '__coap_is ping' -l give-up -x -d 'gives up after so many seconds, and so each time'

# help
complete -c coap -n __coap_begins -a help -d 'Prints help'
complete -c coap -n '__coap_is help' -a 'show dump answer pair serve sim get put post delete observe discover ping'
