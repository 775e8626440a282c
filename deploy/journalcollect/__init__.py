"""What stands around the program journal-collect: machines that send, the collector's service, reading, forwarding."""
VERSION = "0.1.0"
