"""Captures of the air: files of pcap and pcapng read packet by packet, radiotap headers and FCS taken off."""
