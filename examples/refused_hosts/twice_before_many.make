# the line behind the last of 4,096 hosts names one of them again
{
    echo 'self 192.0.2.10 02:00:00:00:00:01'
    echo 'gateway 02:00:00:00:00:fe'
    seq 0 4095 | sed 's/.*/host h&.example 198.51.100.1/'
    echo 'host h7.example 198.51.100.1'
} >hosts
