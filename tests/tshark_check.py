#!/usr/bin/env python3
"""Compares the fields that Wireshark's reader finds in a capture with the list written beside it: tests/tshark_check.py DIRECTORY

The directory is one that the program `capture` wrote to. Each field's offset, width and octets must be the same. Without tshark nothing is
compared, and the exit status is 77."""
import os
import shutil
import subprocess
import sys
import xml.etree.ElementTree as xml

# The exit status where there is no tshark.
NOT_COMPARED = 77

# The names that tshark has for the fields of 002.
NAMES = {
    "version": "version",
    "messageId": "message_id",
    "sessionId": "session_id",
    "messageFlags": "message_flags",
    "messageLen": "message_len",
    "initiatorId": "initiator_id",
    "initiatorPort": "initiator_port",
    "capabilities": "capabilities",
    "keepAliveInterval": "keepalive_interval",
    "vendorId": "vendor_id",
    "timeStamp": "timestamp",
    "errorCode": "error_code",
    "description": "description",
    "exporterBootTime": "exporter_boot_time",
    "firstRecordSequenceNumber": "first_record_sequence_number",
    "droppedRecordCount": "dropped_record_count",
    "primary": "primary",
    "ackTimeInterval": "ack_time_interval",
    "ackSequenceInterval": "ack_sequence_interval",
    "documentId": "document_id",
    "reasonCode": "reason_code",
    "reasonInfo": "reason_info",
    "templateId": "template_id",
    "configId": "config_id",
    "flags": "flags",
    "sequenceNum": "sequence_num",
    "dataRecord": "data_record",
}


def expected_fields(path):
    """For each packet its fields: name, offset, width, octets. tshark shows a text or a record with the length before it as one field."""
    packets = {}
    length = None
    for line in open(path):
        packet, name, offset, octets = line.rstrip("\n").split(" ")
        fields = packets.setdefault(int(packet), [])
        if name == "length":
            length = (offset, octets)
            continue
        if length is not None:
            offset, octets, length = length[0], length[1] + octets, None
        fields.append(("ipdr." + NAMES[name], int(offset), len(octets) // 2, octets))
    return packets


def shown_fields(capture):
    """For each packet the fields that tshark shows, with offsets from the message's first octet."""
    command = ["tshark", "-r", capture, "-T", "pdml", "-o", "ip.check_checksum:TRUE", "-o", "tcp.check_checksum:TRUE"]
    output = subprocess.run(command, check=True, stdout=subprocess.PIPE, stderr=subprocess.DEVNULL).stdout
    packets = {}
    for packet, element in enumerate(xml.fromstring(output), 1):
        packets[packet] = []
        for message in element.findall("proto[@name='ipdr']"):
            first = int(message.get("pos"))
            for field in message.iter("field"):
                if field.get("name").startswith("ipdr."):
                    offset, width = int(field.get("pos")) - first, int(field.get("size"))
                    packets[packet].append((field.get("name"), offset, width, field.get("value")))
    return packets


def main():
    if len(sys.argv) != 2:
        sys.exit(__doc__)
    if shutil.which("tshark") is None:
        print("tshark: not installed, nothing compared")
        sys.exit(NOT_COMPARED)
    version = subprocess.run(["tshark", "--version"], stdout=subprocess.PIPE, stderr=subprocess.DEVNULL, text=True).stdout.split("\n")[0]
    expected = expected_fields(os.path.join(sys.argv[1], "ipdr.fields"))
    shown = shown_fields(os.path.join(sys.argv[1], "ipdr.pcap"))
    differences = 0
    for packet in sorted(expected.keys() | shown.keys()):
        ours, theirs = expected.get(packet, []), shown.get(packet, [])
        if ours != theirs:
            differences += 1
            print(f"packet {packet}\n  expected {ours}\n  tshark   {theirs}")
    fields = sum(len(fields) for fields in expected.values())
    print(f"{version} {len(expected)} messages, {fields} fields, {differences} messages with differences")
    sys.exit(1 if differences else 0)


main()
