Foo.new.baz(1)
