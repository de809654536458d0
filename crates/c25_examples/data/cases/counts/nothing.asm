X       .set    1
