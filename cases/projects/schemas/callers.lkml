view: values { dimension: x { } }
explore: region { from: values access_filter: { field: x user_attribute: region } }
explore: loader { from: values access_filter: { field: x user_attribute: loader } }
explore: a { from: values access_filter: { field: x user_attribute: a } }
explore: b { from: values access_filter: { field: x user_attribute: b } }
explore: A { from: values access_filter: { field: x user_attribute: A } }
explore: nameless { from: values access_filter: { field: x user_attribute: "" } }
view: free { sql_table_name: eu ;; dimension: x { } }
explore: free { }
