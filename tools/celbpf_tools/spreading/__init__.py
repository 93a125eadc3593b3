"""Work spread over hosts, which are processes of `sshd` on the loopback.

    hosts   the hosts, and their processes
"""
