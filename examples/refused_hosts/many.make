# 4,096 hosts are read, and the next one is too many
{
    echo 'self 192.0.2.10 02:00:00:00:00:01'
    echo 'gateway 02:00:00:00:00:fe'
    seq 0 4096 | sed 's/.*/host h&.example 198.51.100.1/'
} >hosts
