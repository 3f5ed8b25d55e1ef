?xml version="1.0" encoding="UTF-8"
(order
Aid 17
-\n  
(item
Asku A-1
-Pen
)item
-\n  
(item
Asku B-7
-Ink & paper
)item
-\n
)order
