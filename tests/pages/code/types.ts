{% for type in types %}interface {{ type.name }} {
{% for field in type.fields %}  {{ field.name }}{% if field.opt %}?{% endif %}: {{ field.type | safe }};
{% endfor %}}
{% endfor %}
