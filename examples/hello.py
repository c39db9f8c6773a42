#!/usr/bin/python3
# A message to oneself, through the router: ./amqr serve (in another window), then examples/hello.py (Debian: python3-qpid-proton).
from proton import Message
from proton.reactor import AtMostOnce
from proton.utils import BlockingConnection

connection = BlockingConnection("amqp://127.0.0.1:5672")
receiver = connection.create_receiver("greetings", credit=1)
sender = connection.create_sender("greetings", options=AtMostOnce())
sender.send(Message(body="hello"))
print(receiver.receive().body)
connection.close()
