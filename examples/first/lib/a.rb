Greeter.new.hello(3)
Greeter.new.wave

Greeter.new.bye
