include: "/views.lkml"
explore: a {}
