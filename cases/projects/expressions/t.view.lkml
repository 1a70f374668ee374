view: t { }
