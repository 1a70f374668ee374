view: values { }
